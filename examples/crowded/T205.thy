theory T205 begin end
