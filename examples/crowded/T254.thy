theory T254 begin end
