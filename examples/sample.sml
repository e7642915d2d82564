(*!
 * Badge rules of branch 12, Harbour Street.
 * Each rule has its grounds above it.
 *)
structure HarbourStreet = struct
  datatype day = Mon | Tue | Wed | Thu | Fri
  type badge = { holder : string, level : int, lost : bool }

  (* The vault opens at seven; nobody needs a badge before. *)
  val opens = 7 and closes = 18

  (* In March a lost badge was used the same evening. So: at once. *)
  exception Lost of badge

  (* The manager saves revocations up for Friday, when the auditor is in. *)
  fun due (Fri, _) = true | due (_, { lost, ... } : badge) = lost

  (* Two people per vault door, level 3 and above, by the bank's own rule. *)
  fun mayOpen ([] : badge list) = false
    | mayOpen [_] = false
    | mayOpen badges = let val high = List.filter (fn b => #level b >= 3) badges in length high >= 2 end

  (* Tellers leave their badges in the drawer; the log shows hours after six. *)
  fun revoke day (badge : badge) =
    if #lost badge then raise Lost badge
    else if due (day, badge) then SOME (#holder badge) else NONE

  (* Successor ML: one arm for both ends of the week, and a vector of the levels. *)
  fun label day = case day of (Mon | Fri) => "end" | Wed => "middle" | _ => "other"
  val levels = #[1, 2, 3]
  do print ("rules of " ^ Int.toString (Vector.length levels) ^ " levels\n")
end
