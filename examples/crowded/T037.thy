theory T037 begin end
