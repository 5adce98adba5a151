theory T021 begin end
