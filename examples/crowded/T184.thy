theory T184 begin end
