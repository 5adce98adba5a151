theory T144 begin end
