theory T005 begin end
