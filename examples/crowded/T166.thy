theory T166 begin end
