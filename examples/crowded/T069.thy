theory T069 begin end
