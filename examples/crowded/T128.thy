theory T128 begin end
