theory T181 begin end
