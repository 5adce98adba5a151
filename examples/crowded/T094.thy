theory T094 begin end
