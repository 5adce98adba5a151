theory T040 begin end
