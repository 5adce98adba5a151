theory T131 begin end
