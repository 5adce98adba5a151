theory T127 begin end
