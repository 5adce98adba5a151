theory T203 begin end
