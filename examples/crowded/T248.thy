theory T248 begin end
