theory T056 begin end
