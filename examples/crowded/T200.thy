theory T200 begin end
