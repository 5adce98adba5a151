theory T076 begin end
