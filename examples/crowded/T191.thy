theory T191 begin end
