theory T097 begin end
