theory T222 begin end
