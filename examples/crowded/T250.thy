theory T250 begin end
