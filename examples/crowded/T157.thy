theory T157 begin end
