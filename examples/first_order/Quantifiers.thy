(* The quantifiers. allI and exE make a parameter of the subgoal, and all rules are lifted over it: where a rule
   has a variable ?x, the subgoal has ?x applied to the parameters. So what must not depend on a parameter is
   chosen before the parameter is there, as in ex_mono: first erule exE, then rule exI. *)
theory Quantifiers imports Fol begin

lemma all_imp: "T (all (%x. imp (P x) (Q x))) ==> T (all P) ==> T (all Q)"
  apply (rule allI)        (* 1. !!x. T (all (%x. imp (P x) (Q x))) ==> T (all P) ==> T (Q x) *)
  apply (rule mp)          (* 1. !!x. .. ==> T (imp (?A x) (Q x))    2. !!x. .. ==> T (?A x) *)
  apply (erule allE)       (* 1. !!x. .. ==> T (P x) *)
  by (erule allE)
lemma ex_mono: "T (all (%x. imp (P x) (Q x))) ==> T (ex P) ==> T (ex Q)"
  apply (erule exE)        (* 1. !!x. T (all (%x. imp (P x) (Q x))) ==> T (P x) ==> T (ex Q) *)
  apply (rule exI)         (* 1. !!x. .. ==> T (Q (?x x)) *)
  apply (rule mp)          (* 1. !!x. .. ==> T (imp (?A x) (Q (?x x)))    2. !!x. .. ==> T (?A x) *)
  apply (erule allE)       (* 1. !!x. .. ==> T (P (?x x)) *)
  by assumption
lemma ex_swap: "T (ex (%x. ex (%y. R x y))) ==> T (ex (%y. ex (%x. R x y)))"
  by (erule exE, erule exE, rule exI, rule exI)
lemma ex_all: "T (ex (%x. all (%y. R x y))) ==> T (all (%y. ex (%x. R x y)))"
  by (rule allI, erule exE, rule exI, erule allE)

(* There is an individual, as of every type: which one is left open, and may be. *)
lemma all_ex: "T (all P) ==> T (ex P)" by (rule exI, erule allE)

lemma not_ex: "T (not (ex P)) ==> T (all (%x. not (P x)))"
  by (rule allI, rule notI, erule notE, rule exI)

end
