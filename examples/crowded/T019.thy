theory T019 begin end
