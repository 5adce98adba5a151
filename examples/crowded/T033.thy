theory T033 begin end
