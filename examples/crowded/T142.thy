theory T142 begin end
