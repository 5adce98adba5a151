theory T243 begin end
