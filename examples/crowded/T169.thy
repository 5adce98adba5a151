theory T169 begin end
