theory T057 begin end
