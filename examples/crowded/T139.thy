theory T139 begin end
