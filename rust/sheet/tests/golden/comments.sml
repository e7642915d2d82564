(*! Doc of the file.
 * It stands above the first rule. *)
val a=1
    (* indented, (* nested *) *)
    val b=2
structure S=struct
(* one *) type t=int
                 (*
                    several lines
                 *)
  fun f x = let
  (* inside *)
  val y=x in y end
end
