theory T195 begin end
