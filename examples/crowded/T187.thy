theory T187 begin end
