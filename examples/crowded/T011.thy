theory T011 begin end
