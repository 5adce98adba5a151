theory T188 begin end
