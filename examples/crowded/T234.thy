theory T234 begin end
