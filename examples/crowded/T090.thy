theory T090 begin end
