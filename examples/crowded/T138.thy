theory T138 begin end
