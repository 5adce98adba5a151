theory T208 begin end
