theory T219 begin end
