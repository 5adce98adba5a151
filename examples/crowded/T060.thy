theory T060 begin end
