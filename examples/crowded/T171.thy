theory T171 begin end
