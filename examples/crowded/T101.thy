theory T101 begin end
