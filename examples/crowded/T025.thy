theory T025 begin end
