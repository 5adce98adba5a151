theory T093 begin end
