theory T089 begin end
