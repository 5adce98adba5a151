theory T178 begin end
