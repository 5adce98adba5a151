theory T051 begin end
