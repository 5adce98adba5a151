theory T078 begin end
