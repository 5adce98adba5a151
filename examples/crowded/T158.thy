theory T158 begin end
