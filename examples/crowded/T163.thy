theory T163 begin end
