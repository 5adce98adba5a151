theory T246 begin end
