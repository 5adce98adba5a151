theory T204 begin end
