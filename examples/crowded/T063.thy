theory T063 begin end
