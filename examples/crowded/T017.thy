theory T017 begin end
