theory T068 begin end
