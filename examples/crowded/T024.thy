theory T024 begin end
