theory T045 begin end
