theory T083 begin end
