theory T176 begin end
