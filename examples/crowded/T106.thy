theory T106 begin end
