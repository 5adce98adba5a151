theory T096 begin end
