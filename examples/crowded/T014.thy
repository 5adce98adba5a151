theory T014 begin end
