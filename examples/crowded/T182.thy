theory T182 begin end
