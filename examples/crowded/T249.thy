theory T249 begin end
