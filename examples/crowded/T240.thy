theory T240 begin end
