theory T049 begin end
