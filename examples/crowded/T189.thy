theory T189 begin end
