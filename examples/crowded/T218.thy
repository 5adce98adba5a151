theory T218 begin end
