theory T010 begin end
