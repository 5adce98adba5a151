theory T015 begin end
