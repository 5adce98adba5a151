theory T091 begin end
