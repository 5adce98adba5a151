(* Definitions, the proofs that unfold them, and one that says too much of types. *)
theory Numbers begin

typedecl nat
consts zero :: nat
  suc :: "nat => nat"
  Even :: "nat => prop"
axiomatization where even_zero: "Even zero"
  and even_next: "Even n ==> Even (suc (suc n))"

definition two :: nat where "two == suc (suc zero)"
definition twice :: "('a => 'a) => 'a => 'a" where "twice == %f x. f (f x)"
definition four :: nat where "four == twice (twice suc) zero"

lemma even_two: "Even two"
  apply (unfold two_def)
  by (rule even_next, rule even_zero)

lemma even_four: "Even four"
  apply (unfold four_def twice_def)
  by (rule even_next, rule even_next, rule even_zero)

lemma two_is_twice: "two == twice suc zero"
  apply (unfold two_def twice_def)
  by (rule Pure.refl)

(* Refused: the type of x isn't in the constant's type. Below it is. *)
definition same :: prop where "same == (!!x. x == x)"
definition same :: "'a => prop" where "same == %x. (x == x)"

lemma same_two: "same two"
  apply (unfold same_def)
  by (rule Pure.refl)

end
