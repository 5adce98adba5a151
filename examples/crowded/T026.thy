theory T026 begin end
