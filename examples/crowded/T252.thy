theory T252 begin end
