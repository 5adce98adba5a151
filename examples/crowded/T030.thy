theory T030 begin end
