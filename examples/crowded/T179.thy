theory T179 begin end
