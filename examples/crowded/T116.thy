theory T116 begin end
