theory T035 begin end
