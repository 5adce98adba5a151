theory T082 begin end
