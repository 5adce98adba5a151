theory T079 begin end
