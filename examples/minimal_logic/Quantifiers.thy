(* Lemmas on the quantifiers: x in !!x is a parameter of the subgoal, and rules are lifted over it. *)
theory Quantifiers imports Propositions begin

lemma all_const: "T A ==> T (all (%x. A))" by (rule allI)
lemma all_imp: "T (all (%x. imp (P x) (Q x))) ==> T (all P) ==> T (all Q)"
  by (rule allI, rule mp, erule spec, erule spec)
lemma all_swap: "T (all (%x. all (%y. R x y))) ==> T (all (%y. all (%x. R x y)))"
  by (rule allI, rule allI, drule spec, erule spec)
lemma all_conj: "T (all (%x. conj (P x) (Q x))) ==> T (conj (all P) (all Q))"
  apply (rule conjI)
  apply (rule allI, rule conj1, erule spec)
  by (rule allI, rule conj2, erule spec)
lemma conj_all: "T (conj (all P) (all Q)) ==> T (all (%x. conj (P x) (Q x)))"
  by (rule allI, rule conjI, drule conj1, erule spec, drule conj2, erule spec)
lemma all_conj_iff: "T (iff (all (%x. conj (P x) (Q x))) (conj (all P) (all Q)))"
  by (rule iffI, erule all_conj, erule conj_all)

lemma ex_mono: "T (all (%x. imp (P x) (Q x))) ==> T (ex P) ==> T (ex Q)"
  by (erule exE, rule exI, rule mp, erule spec)
lemma ex_conj: "T (ex (%x. conj A (P x))) ==> T (conj A (ex P))"
  by (rule conjI, erule exE, erule conj1, erule exE, rule exI, erule conj2)
lemma ex_all: "T (ex (%x. all (%y. R x y))) ==> T (all (%y. ex (%x. R x y)))"
  by (rule allI, erule exE, rule exI, erule spec)
lemma not_ex: "T (not (ex P)) ==> T (all (%x. not (P x)))"
  by (rule allI, rule notI, erule notE, rule exI)

end
