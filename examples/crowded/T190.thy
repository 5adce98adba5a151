theory T190 begin end
