theory T087 begin end
