theory T216 begin end
