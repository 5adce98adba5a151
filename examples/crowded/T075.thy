theory T075 begin end
