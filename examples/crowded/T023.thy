theory T023 begin end
