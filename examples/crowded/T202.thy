theory T202 begin end
