theory T000 begin end
