theory T124 begin end
