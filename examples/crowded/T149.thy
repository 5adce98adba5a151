theory T149 begin end
