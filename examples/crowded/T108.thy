theory T108 begin end
