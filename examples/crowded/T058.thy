theory T058 begin end
