theory T086 begin end
