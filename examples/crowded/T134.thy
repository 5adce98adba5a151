theory T134 begin end
