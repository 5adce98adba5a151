theory T209 begin end
