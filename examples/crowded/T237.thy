theory T237 begin end
