theory T104 begin end
