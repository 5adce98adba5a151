theory T215 begin end
