theory T066 begin end
