(* A greatest element. *)
theory Right imports Base begin

consts top :: i
  mid :: i
axiomatization where greatest: "le x top"

lemma above_mid: "le mid top" by (rule greatest)

end
