theory T238 begin end
