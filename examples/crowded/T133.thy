theory T133 begin end
