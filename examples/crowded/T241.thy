theory T241 begin end
