(* What rests on the failed lemma of another theory. *)
theory Later imports Start begin

lemma so_cold: "Cold" by (rule is_cold)
lemma in_both: "Cold" by (rule if_rain, rule rains)
lemma unread: "Wet ==> Cold" by (rule chill)

end
