theory T132 begin end
