theory T153 begin end
