theory T121 begin end
