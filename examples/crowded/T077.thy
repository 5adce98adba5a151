theory T077 begin end
