theory T185 begin end
