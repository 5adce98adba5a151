theory T232 begin end
