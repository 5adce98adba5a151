theory T229 begin end
