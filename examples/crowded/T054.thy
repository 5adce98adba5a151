theory T054 begin end
