theory T003 begin end
