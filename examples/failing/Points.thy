(* Two classes, and a type to which West and East give arities that don't fit. *)
theory Points begin
class c
class d
class e
typedecl 'a k
end
