(* Lemmas on implication, conjunction, negation and equivalence. *)
theory Propositions imports Logic begin

lemma imp_refl: "T (imp A A)" by (rule impI)
lemma imp_const: "T (imp A (imp B A))" by (rule impI, rule impI)
lemma imp_trans: "T (imp A B) ==> T (imp B C) ==> T (imp A C)"
  by (rule impI, rule mp, assumption, rule mp)
lemma imp_distributes: "T (imp (imp A (imp B C)) (imp (imp A B) (imp A C)))"
  by (rule impI, rule impI, rule impI, drule mp, assumption, erule mp, erule mp)

lemma conj_commutes: "T (conj A B) ==> T (conj B A)"
  apply (rule conjI)
  apply (erule conj2)
  by (erule conj1)
lemma conj_associates: "T (conj A (conj B C)) ==> T (conj (conj A B) C)"
  apply (rule conjI)
  apply (rule conjI)
  apply (erule conj1)
  apply (drule conj2)
  apply (erule conj1)
  apply (drule conj2)
  by (erule conj2)

(* Elimination as one rule: here mp is this logic's, and Pure's is named in full. *)
lemma conjE: "[| T (conj A B); [| T A; T B |] ==> T C |] ==> T C"
  apply (drule Pure.mp)
  apply (erule conj1)
  apply (erule Pure.mp)
  by (erule conj2)

lemma curry: "T (imp (conj A B) C) ==> T (imp A (imp B C))"
  by (rule impI, rule impI, erule mp, rule conjI)
lemma uncurry: "T (imp A (imp B C)) ==> T (imp (conj A B) C)"
  by (rule impI, drule mp, erule conj1, erule mp, erule conj2)

lemma falseE: "T false ==> T A" by (unfold false_def, erule spec)
lemma notI: "(T A ==> T false) ==> T (not A)"
  by (unfold not_def, rule impI, erule Pure.mp)
lemma notE: "T (not A) ==> T A ==> T B"
  by (unfold not_def, drule mp, assumption, rule falseE)

lemma iffI: "(T A ==> T B) ==> (T B ==> T A) ==> T (iff A B)"
  apply (unfold iff_def)
  apply (rule conjI)
  apply (rule impI, erule Pure.mp, assumption)
  by (rule impI, erule Pure.mp)
lemma iff1: "T (iff A B) ==> T A ==> T B" by (unfold iff_def, drule conj1, erule mp)
lemma iff2: "T (iff A B) ==> T B ==> T A" by (unfold iff_def, drule conj2, erule mp)
lemma iff_refl: "T (iff A A)" by (rule iffI)
lemma iff_sym: "T (iff A B) ==> T (iff B A)"
  by (rule iffI, erule iff2, assumption, erule iff1)
lemma conj_iff: "T (iff (conj A B) (conj B A))"
  by (rule iffI, erule conj_commutes, erule conj_commutes)

end
