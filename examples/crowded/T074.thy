theory T074 begin end
