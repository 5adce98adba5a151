theory T236 begin end
