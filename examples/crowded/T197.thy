theory T197 begin end
