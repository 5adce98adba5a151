theory T230 begin end
