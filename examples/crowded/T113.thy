theory T113 begin end
