theory T146 begin end
