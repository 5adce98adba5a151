theory T038 begin end
