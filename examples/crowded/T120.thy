theory T120 begin end
