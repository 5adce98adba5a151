theory T088 begin end
