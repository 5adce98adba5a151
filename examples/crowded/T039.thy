theory T039 begin end
