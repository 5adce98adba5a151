theory T223 begin end
