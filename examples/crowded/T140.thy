theory T140 begin end
