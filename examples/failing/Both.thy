(* Refused when it begins: no one arity covers both. *)
theory Both imports West East begin end
