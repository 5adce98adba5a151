theory T110 begin end
