theory T009 begin end
