theory T027 begin end
