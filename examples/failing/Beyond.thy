(* Refused with its parent. *)
theory Beyond imports Both begin end
