theory T220 begin end
