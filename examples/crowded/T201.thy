theory T201 begin end
