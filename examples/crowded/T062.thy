theory T062 begin end
