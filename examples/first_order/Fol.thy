(* A first-order logic: individuals are of type i, formulas of type o, and T says that a formula holds.
   Its rules are axioms of Pure. A rule with !! in a premise is one for each individual. *)
theory Fol begin

typedecl i
typedecl o
consts T :: "o => prop"
  false :: o
  imp :: "o => o => o"
  conj :: "o => o => o"
  disj :: "o => o => o"
  all :: "(i => o) => o"
  ex :: "(i => o) => o"
  eq :: "i => i => o"

axiomatization where falseE: "T false ==> T A"
  and impI: "(T A ==> T B) ==> T (imp A B)"
  and mp: "T (imp A B) ==> T A ==> T B"
  and conjI: "T A ==> T B ==> T (conj A B)"
  and conj1: "T (conj A B) ==> T A"
  and conj2: "T (conj A B) ==> T B"
  and disj1: "T A ==> T (disj A B)"
  and disj2: "T B ==> T (disj A B)"
  and disjE: "T (disj A B) ==> (T A ==> T C) ==> (T B ==> T C) ==> T C"
  and allI: "(!!x. T (P x)) ==> T (all P)"
  and allE: "T (all P) ==> T (P x)"
  and exI: "T (P x) ==> T (ex P)"
  and exE: "T (ex P) ==> (!!x. T (P x) ==> T C) ==> T C"
  and eq_refl: "T (eq x x)"
  and eq_subst: "T (eq x y) ==> T (P x) ==> T (P y)"

definition not :: "o => o" where "not == %A. imp A false"

(* The implication that any equation may be put into, as eq_refl is the equation: Equality.thy uses both. *)
lemma imp_refl: "T (imp A A)" by (rule impI)

(* In the first subgoal the implication T A ==> T false is a hypothesis. It is used by Pure's own mp,
   which is named in full, since mp alone is this logic's. *)
lemma notI: "(T A ==> T false) ==> T (not A)"
  apply (unfold not_def)
  apply (rule impI)        (* 1. (T A ==> T false) ==> T A ==> T false *)
  apply (erule Pure.mp)    (* 1. T A ==> T A *)
  by assumption
lemma notE: "T (not A) ==> T A ==> T B"
  by (unfold not_def, drule mp, assumption, rule falseE)

(* conj1 and conj2 each take the hypothesis away: where both parts are needed, they are taken out at once. *)
lemma conjE: "T (conj A B) ==> (T A ==> T B ==> T C) ==> T C"
  apply (drule Pure.mp)    (* 1. T (conj A B) ==> T A    2. T (conj A B) ==> (T B ==> T C) ==> T C *)
  apply (erule conj1)      (* 1. T (conj A B) ==> (T B ==> T C) ==> T C *)
  apply (erule Pure.mp)    (* 1. T (conj A B) ==> T B *)
  by (erule conj2)
lemma conj_commutes: "T (conj A B) ==> T (conj B A)" by (erule conjE, rule conjI)

(* Elimination takes the hypothesis away and leaves a subgoal for each case. *)
lemma disj_commutes: "T (disj A B) ==> T (disj B A)"
  apply (erule disjE)      (* 1. T A ==> T (disj B A)    2. T B ==> T (disj B A) *)
  apply (rule disj2)       (* 1. T A ==> T A    2. T B ==> T (disj B A) *)
  apply assumption
  by (rule disj1)

end
