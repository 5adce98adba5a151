theory T044 begin end
