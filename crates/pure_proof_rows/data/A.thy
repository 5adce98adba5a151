theory A begin
typedecl i
consts P :: "i => prop" E :: "i => i => prop" Q :: prop a :: i b :: i
axiomatization where pa: "P a" and r: "E x x" and q: "E (F a) (G b) ==> Q" and two: "Q ==> P a ==> Q"
definition d :: i where "d == a"
lemma l1: "A ==> A" by assumption
lemma l2: "P d" apply (unfold d_def) apply (rule pa) done
lemma l3: "P a" by (rule pa)
lemma l4: "P a ==> P a" by (rule l3)
lemma l5: "Q" apply (rule q) apply (rule r) done
lemma l6: "(A ==> B) ==> A ==> B" by (erule Pure.mp, assumption)
lemma l7: "(A ==> B) ==> (B ==> C) ==> A ==> C" apply (drule Pure.mp) prefer 2 apply (drule Pure.mp) defer apply assumption apply assumption apply assumption done
lemma l8: "P d" apply (unfold d_def) by (rule l3)
lemma l9: "Q" apply (rule two) apply (rule l5) by (rule l3)
lemma m0: "(A ==> B) ==> A ==> B" apply (rule Pure.mp) defer prefer 2 by (assumption, assumption)
lemma m1: "A ==> B" by assumption
lemma m2: "P a" by (rule pa, rule z)
lemma m3: "P a" apply (rule pa) prefer 1 done
lemma m4: "P a" by (unfold d_def)
lemma m5: "P a" apply (rule pa) by assumption
lemma m6: "E a b" by (rule r)
lemma m7: "P a" done
lemma m8: "Q" by (rule q)
lemma m9: "Q ==> Q" by (erule q)
lemma n1: "Q ==> Q" apply (erule pa) done
lemma n2: "P a" by (unfold pa)
consts g :: "i => i" h :: "i => i"
axiomatization where s: "E (F (g a)) (h (F a)) ==> Q"
lemma n3: "Q" apply (rule s) apply (rule r) done
lemma n4: "E (g a) (h a)" by (rule r)
end