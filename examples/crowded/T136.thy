theory T136 begin end
