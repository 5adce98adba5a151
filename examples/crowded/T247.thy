theory T247 begin end
