theory T129 begin end
