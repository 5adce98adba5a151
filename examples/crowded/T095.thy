theory T095 begin end
