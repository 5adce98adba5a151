theory T196 begin end
