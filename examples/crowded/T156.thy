theory T156 begin end
