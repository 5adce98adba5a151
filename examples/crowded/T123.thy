theory T123 begin end
