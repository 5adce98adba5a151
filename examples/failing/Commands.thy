(* Each reason for which a command is refused, but for that of Long. *)
theory Commands begin

class c
class d < c
typedecl i
typedecl 'a k
arities k :: (c) c
consts a :: i
  p :: "i => i => i"

class c
class e < f
arities m :: c
arities k :: c
arities k :: ({}) d

consts b :: "i =>"
  b :: "i => j"
  b :: "'a::f => i"
  b :: "i k => k"
  b :: "?'a => i"

axiomatization where n: "a == p"
  and n: "a == (%x. p x x) ((%x. p x x) ((%x. p x x) ((%x. p x x) ((%x. p x x) ((%x. p x x) ((%x. p x x) ((%x. p x x) ((%x. p x x) ((%x. p x x) ((%x. p x x) ((%x. p x x) ((%x. p x x) ((%x. p x x) a)))))))))))))"
  and n: "a == (%x. p x x) ((%x. p x x) ((%x. p x x) ((%x. p x x) ((%x. p x x) ((%x. p x x) ((%x. p x x) ((%x. p x x) ((%x. p x x) a))))))))"

definition b :: i where "a == b"
definition b :: i where "b == x"
definition b :: prop where "b == (!!x. x == x)"

end
