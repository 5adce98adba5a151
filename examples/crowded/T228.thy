theory T228 begin end
