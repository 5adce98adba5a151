theory T154 begin end
