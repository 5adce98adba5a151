theory T161 begin end
