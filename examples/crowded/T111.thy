theory T111 begin end
