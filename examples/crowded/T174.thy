theory T174 begin end
