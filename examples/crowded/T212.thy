theory T212 begin end
