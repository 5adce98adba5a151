theory T118 begin end
