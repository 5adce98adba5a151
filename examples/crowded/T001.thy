theory T001 begin end
