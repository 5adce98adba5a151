theory T048 begin end
