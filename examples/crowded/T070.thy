theory T070 begin end
