theory T141 begin end
