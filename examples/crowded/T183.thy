theory T183 begin end
