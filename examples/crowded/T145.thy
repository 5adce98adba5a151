theory T145 begin end
