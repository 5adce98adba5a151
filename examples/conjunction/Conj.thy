(* An object logic with conjunction alone: formulas, which of them hold, and the rules. *)
theory Conj imports Pure begin

typedecl o
consts T :: "o => prop"
  conj :: "o => o => o"
axiomatization where conjI: "T P ==> T Q ==> T (conj P Q)"
  and conj1: "T (conj P Q) ==> T P"
  and conj2: "T (conj P Q) ==> T Q"

lemma commutes: "T (conj A B) ==> T (conj B A)"
  apply (rule conjI)
  apply (erule conj2)
  by (erule conj1)

(* Elimination as one rule, from the two projections. *)
lemma conjE: "[| T (conj P Q); [| T P; T Q |] ==> T R |] ==> T R"
  apply (drule Pure.mp)
  apply (erule conj1)
  apply (erule Pure.mp)
  by (erule conj2)

lemma commutes_again: "T (conj A B) ==> T (conj B A)"
  apply (erule conjE)
  by (rule conjI)

lemma associates: "T (conj A (conj B C)) ==> T (conj (conj A B) C)"
  apply (rule conjI)
  apply (rule conjI)
  apply (erule conj1)
  apply (drule conj2)
  apply (erule conj1)
  apply (drule conj2)
  by (erule conj2)

end
