theory T167 begin end
