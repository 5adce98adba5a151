theory T115 begin end
