(* A lemma that fails, what rests on it, and what doesn't. *)
theory Start begin

consts Rain :: prop
  Wet :: prop
  Cold :: prop
axiomatization where wet: "Rain ==> Wet"
  and cold: "Wet ==> Cold"

(* Nothing proves this, and what rests on it is tainted. *)
lemma rains: "Rain" done
lemma is_wet: "Wet" by (rule wet, rule rains)
lemma is_cold: "Cold" by (rule cold, rule is_wet)

(* This doesn't rest on it. *)
lemma if_rain: "Rain ==> Cold"
  apply (rule cold)
  by (rule wet)

lemma backwards: "Cold ==> Rain" by (erule wet)

(* Refused, as it says nothing; and the name above is taken. *)
lemma nonsense: "Rain Wet" by assumption
lemma if_rain: "Rain ==> Wet" by (rule wet)

end
