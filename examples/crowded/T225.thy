theory T225 begin end
