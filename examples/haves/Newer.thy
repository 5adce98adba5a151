(* A version that isn't there yet. *)
version 3
theory Newer begin end
