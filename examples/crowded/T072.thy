theory T072 begin end
