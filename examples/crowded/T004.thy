theory T004 begin end
