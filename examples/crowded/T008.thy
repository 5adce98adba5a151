theory T008 begin end
