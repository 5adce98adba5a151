theory T152 begin end
