theory T160 begin end
