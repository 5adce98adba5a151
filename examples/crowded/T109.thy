theory T109 begin end
