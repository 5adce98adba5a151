theory T211 begin end
