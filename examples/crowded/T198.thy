theory T198 begin end
