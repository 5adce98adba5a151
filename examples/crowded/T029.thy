theory T029 begin end
