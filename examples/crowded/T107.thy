theory T107 begin end
