theory T061 begin end
