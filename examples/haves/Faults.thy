(* Each fault of a proof, in haves of its name, and what rests on haves that failed. *)
version 2
theory Faults begin

typedecl i
consts P :: "i => prop"
  Q :: "i => prop"
  R :: "(i => i) => prop"
  E :: "i => i => prop"
  a :: i
  g :: "i => i"
  h :: "i => i"
  p :: "i => i => i"
axiomatization where P_a: "P a"
  and Q_if_P: "P x ==> Q x"
  and same: "E x x"
  and endless: "E (F (g a)) (h (F a)) ==> P x"
  and deep: "P (F (F (F (F (F (F (F (F (F (F (F (F (F (F a)))))))))))))) ==> R F"
  and grows: "P (p (p (p x x) (p x x)) (p (p x x) (p x x))) ==> P x"
definition b :: i where "b == a"

lemma each: "A ==> A"
  have unknown_fact: "P a" by (rule P_b)
  have no_subgoal: "P a" by (rule P_a, assumption)
  have no_premise: "P a ==> Q a" by (erule P_a)
  have no_hypothesis: "Q a" by assumption
  have no_unifier: "Q a" by (rule P_a)
  have not_a_definition: "P b" by (unfold P_a)
  have nothing_to_unfold: "P a" by (unfold b_def)
  have subgoals_left: "Q a" by (rule Q_if_P)
  have search_bound: "P a" by (rule endless, rule same)
  have too_many_beta_steps: "R (%x. p x x)" by (rule deep)
  have too_large: "P a" by (rule grows, rule grows, rule grows, rule grows, rule grows)
  by assumption

lemma unused: "A ==> A"
  have bad: "A ==> B" by assumption
  have worse: "A ==> B" by (rule bad)
  by assumption
lemma used: "A ==> B"
  have each: "A ==> B" done
  by (rule each)
lemma later: "A ==> B" by (rule used)
lemma outside: "A ==> B" by (rule bad)
lemma itself: "A ==> B"
  have early: "A ==> B" by (rule late)
  have late: "A ==> B" by (rule late)
  have above: "A ==> B" by (rule itself)
  by assumption

end
