theory T150 begin end
