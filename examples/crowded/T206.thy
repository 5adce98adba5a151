theory T206 begin end
