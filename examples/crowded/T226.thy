theory T226 begin end
