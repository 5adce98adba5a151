theory T192 begin end
