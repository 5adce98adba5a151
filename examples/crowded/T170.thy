theory T170 begin end
