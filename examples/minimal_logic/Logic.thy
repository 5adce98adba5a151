(* A small logic: formulas are of type o, and T says that one holds. Its rules are axioms of Pure. *)
theory Logic begin

typedecl o
consts T :: "o => prop"
  imp :: "o => o => o"
  conj :: "o => o => o"
  all :: "('a => o) => o"
  ex :: "('a => o) => o"

axiomatization where impI: "(T A ==> T B) ==> T (imp A B)"
  and mp: "T (imp A B) ==> T A ==> T B"
  and conjI: "T A ==> T B ==> T (conj A B)"
  and conj1: "T (conj A B) ==> T A"
  and conj2: "T (conj A B) ==> T B"
  and allI: "(!!x. T (P x)) ==> T (all P)"
  and spec: "T (all P) ==> T (P x)"
  and exI: "T (P x) ==> T (ex P)"
  and exE: "T (ex P) ==> (!!x. T (P x) ==> T C) ==> T C"

(* Falsity, negation and equivalence are defined. *)
definition false :: o where "false == all (%p. p)"
definition not :: "o => o" where "not == %A. imp A false"
definition iff :: "o => o => o" where "iff == %A B. conj (imp A B) (imp B A)"

end
