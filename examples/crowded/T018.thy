theory T018 begin end
