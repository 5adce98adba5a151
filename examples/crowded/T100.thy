theory T100 begin end
