theory T020 begin end
