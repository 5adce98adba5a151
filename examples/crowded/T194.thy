theory T194 begin end
