theory T233 begin end
