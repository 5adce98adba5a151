theory T172 begin end
