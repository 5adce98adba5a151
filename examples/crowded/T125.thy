theory T125 begin end
