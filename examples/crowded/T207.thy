theory T207 begin end
