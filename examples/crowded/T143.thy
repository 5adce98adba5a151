theory T143 begin end
