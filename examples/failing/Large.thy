(* More than 512 commands. *)
theory Large begin
class c class c class c class c class c class c class c class c class c class c class c class c class c class c class c class c class c class c class c
class c class c class c class c class c class c class c class c class c class c class c class c class c class c class c class c class c class c class c
class c class c class c class c class c class c class c class c class c class c class c class c class c class c class c class c class c class c class c
class c class c class c class c class c class c class c class c class c class c class c class c class c class c class c class c class c class c class c
class c class c class c class c class c class c class c class c class c class c class c class c class c class c class c class c class c class c class c
class c class c class c class c class c class c class c class c class c class c class c class c class c class c class c class c class c class c class c
class c class c class c class c class c class c class c class c class c class c class c class c class c class c class c class c class c class c class c
class c class c class c class c class c class c class c class c class c class c class c class c class c class c class c class c class c class c class c
class c class c class c class c class c class c class c class c class c class c class c class c class c class c class c class c class c class c class c
class c class c class c class c class c class c class c class c class c class c class c class c class c class c class c class c class c class c class c
class c class c class c class c class c class c class c class c class c class c class c class c class c class c class c class c class c class c class c
class c class c class c class c class c class c class c class c class c class c class c class c class c class c class c class c class c class c class c
class c class c class c class c class c class c class c class c class c class c class c class c class c class c class c class c class c class c class c
class c class c class c class c class c class c class c class c class c class c class c class c class c class c class c class c class c class c class c
class c class c class c class c class c class c class c class c class c class c class c class c class c class c class c class c class c class c class c
class c class c class c class c class c class c class c class c class c class c class c class c class c class c class c class c class c class c class c
class c class c class c class c class c class c class c class c class c class c class c class c class c class c class c class c class c class c class c
class c class c class c class c class c class c class c class c class c class c class c class c class c class c class c class c class c class c class c
class c class c class c class c class c class c class c class c class c class c class c class c class c class c class c class c class c class c class c
class c class c class c class c class c class c class c class c class c class c class c class c class c class c class c class c class c class c class c
class c class c class c class c class c class c class c class c class c class c class c class c class c class c class c class c class c class c class c
class c class c class c class c class c class c class c class c class c class c class c class c class c class c class c class c class c class c class c
class c class c class c class c class c class c class c class c class c class c class c class c class c class c class c class c class c class c class c
class c class c class c class c class c class c class c class c class c class c class c class c class c class c class c class c class c class c class c
class c class c class c class c class c class c class c class c class c class c class c class c class c class c class c class c class c class c class c
class c class c class c class c class c class c class c class c class c class c class c class c class c class c class c class c class c class c class c
class c class c class c class c class c class c class c class c class c class c class c class c class c class c class c class c class c class c class c
end
