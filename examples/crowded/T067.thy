theory T067 begin end
