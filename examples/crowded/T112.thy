theory T112 begin end
