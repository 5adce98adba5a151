theory T102 begin end
