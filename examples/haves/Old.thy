(* Haves are those of version 2: without a version this is a text of version 1. *)
theory Old begin

lemma k: "A ==> A"
  have h: "C ==> C" by assumption
  by (rule h)

end
