theory T080 begin end
