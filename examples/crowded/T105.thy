theory T105 begin end
