theory T036 begin end
