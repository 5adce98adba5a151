(* Proofs in parts: each conjunct first, as a have of its own, and then the lemma from these. *)
version 2
theory Use begin

typedecl o
consts T :: "o => prop"
  conj :: "o => o => o"
axiomatization where conjI: "T P ==> T Q ==> T (conj P Q)"
  and conj1: "T (conj P Q) ==> T P"
  and conj2: "T (conj P Q) ==> T Q"

lemma associates: "T (conj A (conj B C)) ==> T (conj (conj A B) C)"
  have first: "T (conj A (conj B C)) ==> T A" by (erule conj1)
  have rest: "T (conj A (conj B C)) ==> T (conj B C)" by (erule conj2)
  have second: "T (conj A (conj B C)) ==> T B"
    apply (drule rest)
    by (erule conj1)
  have third: "T (conj A (conj B C)) ==> T C"
    apply (drule rest)
    by (erule conj2)
  apply (rule conjI)
  apply (rule conjI)
  apply (erule first)
  apply (erule second)
  by (erule third)

(* The same names are free in another lemma, and the first of these isn't found there. *)
lemma turns: "T (conj A B) ==> T (conj B A)"
  have second: "T (conj A B) ==> T B" by (erule conj2)
  have first: "T (conj A B) ==> T A" by (erule conj1)
  apply (rule conjI)
  apply (erule second)
  by (erule first)

lemma alone: "T (conj A B) ==> T A" by (erule first)

end
