theory T137 begin end
