theory T016 begin end
