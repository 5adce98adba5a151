theory T193 begin end
