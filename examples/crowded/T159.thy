theory T159 begin end
