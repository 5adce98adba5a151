theory T047 begin end
