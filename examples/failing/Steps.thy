(* Each fault of a proof, in lemmas of its name. *)
theory Steps begin

typedecl i
consts P :: "i => prop"
  Q :: "i => prop"
  R :: "(i => i) => prop"
  E :: "i => i => prop"
  a :: i
  g :: "i => i"
  h :: "i => i"
  p :: "i => i => i"
axiomatization where P_a: "P a"
  and Q_if_P: "P x ==> Q x"
  and same: "E x x"
  and endless: "E (F (g a)) (h (F a)) ==> P x"
  and deep: "P (F (F (F (F (F (F (F (F (F (F (F (F (F (F a)))))))))))))) ==> R F"
  and grows: "P (p (p (p x x) (p x x)) (p (p x x) (p x x))) ==> P x"
definition b :: i where "b == a"

lemma unknown_fact: "P a" by (rule P_b)
lemma no_subgoal: "P a" by (rule P_a, assumption)
lemma no_premise: "P a ==> Q a" by (erule P_a)
lemma no_hypothesis: "Q a" by assumption
lemma no_unifier: "Q a" by (rule P_a)
lemma not_a_definition: "P b" by (unfold P_a)
lemma nothing_to_unfold: "P a" by (unfold b_def)
lemma subgoals_left: "Q a" by (rule Q_if_P)
lemma search_bound: "P a" by (rule endless, rule same)
lemma too_many_beta_steps: "R (%x. p x x)" by (rule deep)
lemma too_large: "P a" by (rule grows, rule grows, rule grows, rule grows, rule grows)

end
