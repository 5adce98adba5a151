theory T173 begin end
