theory T242 begin end
