theory T042 begin end
