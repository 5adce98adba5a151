theory T224 begin end
