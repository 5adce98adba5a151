theory T103 begin end
