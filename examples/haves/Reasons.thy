(* Each reason for which a have is refused. The lemma is proved from the one that stands. *)
version 2
theory Reasons begin

typedecl i
consts a :: i
  p :: "i => i => i"
  P :: "i => prop"

lemma k: "A ==> A"
  have h: "A ==>" done
  have h: "P (x :: j)" done
  have h: "P (x :: 'a::c)" done
  have h: "P (x :: i i)" done
  have h: "P ?x" done
  have h: "P p" done
  have h: "a == (%x. p x x) ((%x. p x x) ((%x. p x x) ((%x. p x x) ((%x. p x x) ((%x. p x x) ((%x. p x x) ((%x. p x x) ((%x. p x x) ((%x. p x x) ((%x. p x x) ((%x. p x x) ((%x. p x x) ((%x. p x x) a)))))))))))))" done
  have h: "a == (%x. p x x) ((%x. p x x) ((%x. p x x) ((%x. p x x) ((%x. p x x) ((%x. p x x) ((%x. p x x) ((%x. p x x) ((%x. p x x) a))))))))" done
  have h: "
    A ==> A ==> A ==> A ==> A ==> A ==> A ==> A ==> A ==> A ==> A ==> A ==> A ==> A ==> A ==> A ==> A ==> A ==> A ==> A ==>
    A ==> A ==> A ==> A ==> A ==> A ==> A ==> A ==> A ==> A ==> A ==> A ==> A ==> A ==> A ==> A ==> A ==> A ==> A ==> A ==>
    A ==> A ==> A ==> A ==> A ==> A ==> A ==> A ==> A ==> A ==> A ==> A ==> A ==> A ==> A ==> A ==> A ==> A ==> A ==> A ==>
    A ==> A ==> A ==> A ==> A ==> A ==> A ==> A ==> A ==> A ==> A ==> A ==> A ==> A ==> A ==> A ==> A ==> A ==> A ==> A ==>
    A ==> A ==> A ==> A ==> A ==> A ==> A ==> A ==> A ==> A ==> A ==> A ==> A ==> A ==> A ==> A ==> A ==> A ==> A ==> A ==>
    A ==> A ==> A ==> A ==> A ==> A ==> A ==> A ==> A ==> A ==> A ==> A ==> A ==> A ==> A ==> A ==> A ==> A ==> A ==> A ==>
    A ==> A ==> A ==> A ==> A ==> A ==> A ==> A ==> A ==> A ==> A ==> A ==> A ==> A ==> A ==> A ==> A ==> A ==> A ==> A ==>
    A ==> A ==> A ==> A ==> A ==> A ==> A ==> A ==> A ==> A ==> A ==> A ==> A ==> A ==> A ==> A ==> A ==> A ==> A ==> A ==>
    A ==> A ==> A ==> A ==> A ==> A ==> A ==> A ==> A ==> A ==> A ==> A ==> A ==> A ==> A ==> A ==> A ==> A ==> A ==> A ==>
    A ==> A ==> A ==> A ==> A ==> A ==> A ==> A ==> A ==> A ==> A ==> A ==> A ==> A ==> A ==> A ==> A ==> A ==> A ==> A ==>
    A ==> A ==> A ==> A ==> A ==> A ==> A ==> A ==> A ==> A ==> A ==> A ==> A ==> A ==> A ==> A ==> A ==> A ==> A ==> A ==>
    A ==> A ==> A ==> A ==> A ==> A ==> A ==> A ==> A ==> A ==> A ==> A ==> A ==> A ==> A ==> A ==> A ==> A ==> A ==> A ==>
    A ==> A ==> A ==> A ==> A ==> A ==> A ==> A ==> A ==> A ==> A ==> A ==> A ==> A ==> A ==> A ==> A ==> A ==> A ==> A ==>
    A ==> A ==> A ==> A ==> A ==> A ==> A ==> A ==> A ==> A ==> A ==> A ==> A ==> A ==> A ==> A ==> A ==> A ==> A ==> A ==>
    A ==> A ==> A ==> A ==> A ==> A ==> A ==> A ==> A ==> A ==> A ==> A ==> A ==> A ==> A ==> A ==> A ==> A ==> A ==> A ==>
    A ==> A ==> A ==> A ==> A ==> A ==> A ==> A ==> A ==> A ==> A ==> A ==> A ==> A ==> A ==> A ==> A ==> A ==> A ==> A ==>
    A ==> A ==> A ==> A ==> A ==> A ==> A ==> A ==> A ==> A ==> A ==> A ==> A ==> A ==> A ==> A ==> A ==> A ==> A ==> A ==>
    A ==> A ==> A ==> A ==> A ==> A ==> A ==> A ==> A ==> A ==> A ==> A ==> A ==> A ==> A ==> A ==> A ==> A ==> A ==> A ==>
    A ==> A ==> A ==> A ==> A ==> A ==> A ==> A ==> A ==> A ==> A ==> A ==> A ==> A ==> A ==> A ==> A ==> A ==> A ==> A ==>
    A ==> A ==> A ==> A ==> A ==> A ==> A ==> A ==> A ==> A ==> A ==> A ==> A ==> A ==> A ==> A ==> A ==> A ==> A ==> A ==>
    A ==> A ==> A ==> A ==> A ==> A ==> A ==> A ==> A ==> A ==> A ==> A ==> A ==> A ==> A ==> A ==> A ==> A ==> A ==> A ==>
    A ==> A ==> A ==> A ==> A ==> A ==> A ==> A ==> A ==> A ==> A ==> A ==> A ==> A ==> A ==> A ==> A ==> A ==> A ==> A ==>
    A ==> A ==> A ==> A ==> A ==> A ==> A ==> A ==> A ==> A ==> A ==> A ==> A ==> A ==> A ==> A ==> A ==> A ==> A ==> A ==>
    A ==> A ==> A ==> A ==> A ==> A ==> A ==> A ==> A ==> A ==> A ==> A ==> A ==> A ==> A ==> A ==> A ==> A ==> A ==> A ==>
    A ==> A ==> A ==> A ==> A ==> A ==> A ==> A ==> A ==> A ==> A ==> A ==> A ==> A ==> A ==> A ==> A ==> A ==> A ==> A ==>
    A" done
  have h: "C ==> C" by assumption
  have h: "C ==> C" by assumption
  by (rule h)

(* Of a lemma that is refused the haves say nothing, and its name stays free. *)
lemma n: "A ==> ==> A"
  have h: "C ==> C" by assumption
  by (rule h)
lemma n: "A ==> A" by assumption

end
