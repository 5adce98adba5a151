theory T164 begin end
