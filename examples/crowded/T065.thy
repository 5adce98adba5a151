theory T065 begin end
