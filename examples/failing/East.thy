(* Of the class e where its argument is of d. *)
theory East imports Points begin
arities k :: (d) e
end
