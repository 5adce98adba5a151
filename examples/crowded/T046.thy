theory T046 begin end
