theory T253 begin end
