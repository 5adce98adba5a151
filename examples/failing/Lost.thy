(* An import that is no file. *)
theory Lost imports Nowhere begin end
