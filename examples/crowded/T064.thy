theory T064 begin end
