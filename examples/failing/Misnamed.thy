(* A name that isn't the file's. *)
theory Other begin end
