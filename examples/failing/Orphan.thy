(* An import that is refused. *)
theory Orphan imports Lost begin end
