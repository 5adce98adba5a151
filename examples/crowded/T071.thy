theory T071 begin end
