theory T043 begin end
