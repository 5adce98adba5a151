(* A class of orders, which both Left and Right import. *)
theory Base begin

class order
typedecl i
arities i :: order
consts le :: "'a::order => 'a => prop"
axiomatization where refl: "le x x"
  and trans: "le x y ==> le y z ==> le x z"

lemma trans_twice: "le a b ==> le b c ==> le c d ==> le a d"
  apply (rule trans)
  apply assumption
  by (rule trans)

end
