(* Two theories that import each other. *)
theory Round imports About begin end
