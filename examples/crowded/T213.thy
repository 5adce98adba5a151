theory T213 begin end
