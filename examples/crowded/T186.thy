theory T186 begin end
