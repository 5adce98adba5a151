theory T135 begin end
