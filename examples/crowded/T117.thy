theory T117 begin end
