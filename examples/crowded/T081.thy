theory T081 begin end
