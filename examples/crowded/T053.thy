theory T053 begin end
