(* Two theories that import each other. *)
theory About imports Round begin end
