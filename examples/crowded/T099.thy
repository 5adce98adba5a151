theory T099 begin end
