theory T147 begin end
