theory T168 begin end
