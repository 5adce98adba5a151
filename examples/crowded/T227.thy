theory T227 begin end
