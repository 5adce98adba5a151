theory T022 begin end
