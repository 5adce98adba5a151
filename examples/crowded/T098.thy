theory T098 begin end
