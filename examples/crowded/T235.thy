theory T235 begin end
