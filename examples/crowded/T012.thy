theory T012 begin end
