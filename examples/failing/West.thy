(* Of the class e where its argument is of c. *)
theory West imports Points begin
arities k :: (c) e
end
