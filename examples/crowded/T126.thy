theory T126 begin end
