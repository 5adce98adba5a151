theory T007 begin end
