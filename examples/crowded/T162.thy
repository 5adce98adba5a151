theory T162 begin end
