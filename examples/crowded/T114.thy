theory T114 begin end
