theory T085 begin end
