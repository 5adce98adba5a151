theory T055 begin end
