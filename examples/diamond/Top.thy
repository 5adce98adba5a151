(* Two theories imported at once, and how names are found in them. *)
theory Top imports Left Right begin

(* Both parents have a mid: the one of the theory loaded last is meant, unless the theory is named. *)
lemma mid_is_right: "mid == Right.mid" by (rule Pure.refl)

lemma from_left: "le bot Left.mid" by (rule below_mid)

lemma through: "le bot top"
  by (rule trans, rule least, rule greatest)

lemma around: "le Left.mid mid ==> le bot top"
  apply (rule trans_twice)
  apply (rule below_mid)
  apply assumption
  by (rule above_mid)

(* Base has a refl, which hides Pure's. *)
lemma hidden: "x == x" by (rule refl)

end
