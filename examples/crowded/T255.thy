theory T255 begin end
