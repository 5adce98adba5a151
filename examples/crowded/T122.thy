theory T122 begin end
