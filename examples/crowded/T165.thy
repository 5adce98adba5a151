theory T165 begin end
