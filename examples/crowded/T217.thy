theory T217 begin end
