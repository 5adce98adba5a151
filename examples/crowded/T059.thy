theory T059 begin end
