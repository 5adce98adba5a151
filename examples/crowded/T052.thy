theory T052 begin end
