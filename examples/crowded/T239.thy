theory T239 begin end
