theory T256 begin end
