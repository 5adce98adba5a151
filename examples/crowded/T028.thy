theory T028 begin end
