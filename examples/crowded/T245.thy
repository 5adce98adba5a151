theory T245 begin end
