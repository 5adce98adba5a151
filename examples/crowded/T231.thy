theory T231 begin end
