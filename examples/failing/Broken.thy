(* No theory: a lemma without a proof. *)
theory Broken begin
lemma open: "A ==> A"
end
