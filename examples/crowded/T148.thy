theory T148 begin end
