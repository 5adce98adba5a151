theory T251 begin end
