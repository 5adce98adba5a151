theory T032 begin end
