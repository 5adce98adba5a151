(* Classes say at which types a constant may be used, arities which types have a class. *)
theory Orders begin

class preorder
class order < preorder

consts le :: "'a::preorder => 'a => prop"
axiomatization where refl: "le x x"
  and trans: "le x y ==> le y z ==> le x z"
  and antisym: "le (x :: 'a::order) y ==> le y x ==> x == y"

typedecl nat
typedecl bool
typedecl 'a list
consts zero :: nat
  true :: bool
  nil :: "'a list"

(* Refused: the type of zero isn't of the class yet. *)
lemma too_early: "le zero zero" by (rule refl)

arities nat :: order
arities bool :: preorder
lemma zero_le_zero: "le zero zero" by (rule refl)

(* Lists of ordered elements are ordered; the class is written for the elements. *)
arities list :: (preorder) preorder
arities list :: (order) order
lemma nil_le_nil: "le (nil :: nat list) nil" by (rule refl)
lemma lists: "le xs ys ==> le ys xs ==> xs == (ys :: nat list list)"
  by (rule antisym)

(* Fails: a bool is of the class preorder alone, and antisym asks for order. *)
lemma no_order: "le x y ==> le y x ==> x == (y :: bool)"
  by (rule antisym)

(* A variable has the classes that are written for it, and what holds for it holds at each such type. *)
lemma three: "le a b ==> le b c ==> le c d ==> le a (d :: 'a::preorder)"
  apply (rule trans)
  apply assumption
  by (rule trans)
lemma three_true: "le x true ==> le true true ==> le true y ==> le x y"
  by (rule three)

(* Refused: an order needs no less of its elements than the arity for order above. *)
class linear < order
arities list :: ({}) linear
arities list :: (linear) linear

end
