theory T073 begin end
