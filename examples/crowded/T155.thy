theory T155 begin end
