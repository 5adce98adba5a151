theory T013 begin end
