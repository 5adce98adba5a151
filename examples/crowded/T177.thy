theory T177 begin end
