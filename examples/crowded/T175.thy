theory T175 begin end
