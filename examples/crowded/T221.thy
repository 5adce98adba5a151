theory T221 begin end
