theory T031 begin end
