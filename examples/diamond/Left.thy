(* A least element. *)
theory Left imports Base begin

consts bot :: i
  mid :: i
axiomatization where least: "le bot x"

lemma below_mid: "le bot mid" by (rule least)

end
