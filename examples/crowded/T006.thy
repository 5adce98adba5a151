theory T006 begin end
