theory T002 begin end
