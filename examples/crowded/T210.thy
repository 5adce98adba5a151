theory T210 begin end
