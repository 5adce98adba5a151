(* Equations: what Pure's refl, subst and ext prove, and definitions that are unfolded. *)
theory Equality begin

(* A step takes the first unifier, and for subst's ?P that is mostly a function that doesn't look at its
   argument. Here refl meets the premise ?P x, which leaves open what is replaced until the end. *)
lemma sym: "x == y ==> y == x" by (drule subst, rule refl)
lemma argument: "x == y ==> f x == f y" by (drule subst, rule refl)
lemma function: "f == g ==> f x == g x" by (drule subst, rule refl)

(* The same with an implication for the equation: as one constant, so that refl has its like. *)
definition implies :: "prop => prop => prop" where "implies == %A B. (A ==> B)"
lemma same: "implies A A" by (unfold implies_def)
lemma equal_implies: "A == B ==> implies A B" by (drule subst, rule same)
lemma equal_elim: "A == B ==> A ==> B"
  apply (drule equal_implies)
  apply (unfold implies_def)
  by (erule mp)

lemma replaced: "y == z ==> implies (x == y) (x == z)" by (drule subst, rule same)
lemma trans_turned: "y == z ==> x == y ==> x == z"
  apply (drule replaced)
  apply (unfold implies_def)
  by (erule mp)
lemma trans: "x == y ==> y == z ==> x == z" by (rule trans_turned)

(* Functions with equal values are equal, propositions that imply each other too. *)
lemma eta: "(%x. f x) == f" by (rule refl)
lemma extensional: "(!!x. f x == g x) ==> f == g" by (erule ext)
lemma equivalent: "(A ==> B) ==> (B ==> A) ==> A == B"
  apply (rule iff)
  apply (erule mp)
  apply assumption
  by (erule mp)

(* unfold replaces a constant by the right side of its definition, in the whole first subgoal. *)
definition identity :: "'a => 'a" where "identity == %x. x"
definition compose :: "('b => 'c) => ('a => 'b) => 'a => 'c" where "compose == %g f x. g (f x)"
lemma left_identity: "compose identity f == f"
  by (unfold compose_def identity_def, rule refl)
lemma right_identity: "compose f identity == f"
  by (unfold compose_def identity_def, rule refl)
lemma associative: "compose (compose h g) f == compose h (compose g f)"
  by (unfold compose_def, rule refl)
lemma pointwise: "(!!x. compose g f x == g (f x))"
  by (unfold compose_def, rule refl)

(* A lemma of the form constant == term is unfolded as a definition is. *)
typedecl i
consts a :: i
  b :: i
  P :: "i => prop"
axiomatization where b_is_a: "b == a" and P_a: "P a"
lemma a_b: "b == a" by (rule b_is_a)
lemma P_b: "P b" by (unfold a_b, rule P_a)

end
