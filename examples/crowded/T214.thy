theory T214 begin end
