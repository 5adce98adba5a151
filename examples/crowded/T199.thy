theory T199 begin end
