theory T151 begin end
