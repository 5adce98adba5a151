theory T119 begin end
