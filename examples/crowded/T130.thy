theory T130 begin end
