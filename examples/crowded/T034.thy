theory T034 begin end
