theory T244 begin end
