theory T084 begin end
