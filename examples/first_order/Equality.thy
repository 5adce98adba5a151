(* Equality. drule eq_subst leaves T (?P x), and T (?P y) as a hypothesis of the old subgoal. A reflexive fact
   meets the first whatever ?P is, so ?P is found in the last step alone, which has to fit both.
   With eq_refl what is proved is an equation, with imp_refl an implication. *)
theory Equality imports Quantifiers begin

lemma sym: "T (eq x y) ==> T (eq y x)"
  apply (drule eq_subst)   (* 1. T (?P x)    2. T (?P y) ==> T (eq y x) *)
  apply (rule eq_refl)     (* 1. T (eq (?f y) (?g y)) ==> T (eq y x), where ?f x and ?g x are equal *)
  by assumption            (* ?f is %u. u, and ?g is %u. x *)
lemma cong: "T (eq x y) ==> T (eq (f x) (f y))" by (drule eq_subst, rule eq_refl)

(* Into an implication: from an equation to what follows with the one side from what holds with the other. *)
lemma right_replaced: "T (eq y z) ==> T (imp (eq x y) (eq x z))" by (drule eq_subst, rule imp_refl)
lemma trans: "T (eq x y) ==> T (eq y z) ==> T (eq x z)"
  apply (rule mp)          (* 1. .. ==> T (imp ?A (eq x z))    2. .. ==> T ?A *)
  prefer 2                 (* 1. .. ==> T ?A    2. .. ==> T (imp ?A (eq x z)) *)
  apply assumption         (* takes T (eq x y) *)
  by (erule right_replaced)
lemma under_all: "T (eq x y) ==> T (imp (all (%z. R x z)) (all (%z. R y z)))"
  by (drule eq_subst, rule imp_refl)

(* Both equations are put in before anything is said of what they are put into. *)
lemma cong_2: "T (eq x y) ==> T (eq u v) ==> T (eq (f x u) (f y v))"
  by (drule eq_subst, drule eq_subst, rule eq_refl, assumption)

(* There is just one: then any two are equal. *)
definition ex1 :: "(i => o) => o"
  where "ex1 == %P. ex (%x. conj (P x) (all (%y. imp (P y) (eq y x))))"
lemma only: "T (all (%y. imp (P y) (eq y x))) ==> T (P a) ==> T (eq a x)"
  by (drule allE, erule mp)
lemma unique: "T (ex1 P) ==> T (P a) ==> T (P b) ==> T (eq a b)"
  apply (unfold ex1_def)
  apply (erule exE)        (* 1. !!x. T (P a) ==> T (P b) ==> T (conj (P x) (all ..)) ==> T (eq a b) *)
  apply (drule conj2)      (* 1. !!x. T (P a) ==> T (P b) ==> T (all ..) ==> T (eq a b) *)
  apply (rule trans)       (* 1. !!x. .. ==> T (eq a (?y x))    2. !!x. .. ==> T (eq (?y x) b) *)
  apply (erule only)       (* 1. !!x. T (P a) ==> T (P b) ==> T (P a)    2. !!x. .. ==> T (eq x b) *)
  apply assumption
  apply (rule sym)
  by (erule only)

end
