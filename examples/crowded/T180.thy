theory T180 begin end
