theory T041 begin end
