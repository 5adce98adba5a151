theory T050 begin end
