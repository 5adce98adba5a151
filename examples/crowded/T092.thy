theory T092 begin end
