(* The rules of a branch, whatever its calendar is. *)
signature CALENDAR = sig
  eqtype day
  type hour = int
  and minute = int
  val today : unit -> day
  and tomorrow : day -> day
  datatype span =
    Whole of day
  | Part of day * hour * hour
  exception Closed of day
end

signature BADGE = sig
  include CALENDAR
  structure Holder : sig
    type t
    val name : t -> string
  end
  type badge
  val issue : Holder.t * day -> badge;
  val lost : badge -> bool
  sharing type Holder.t = badge
end where type hour = int where type day = string

structure Days :> CALENDAR where type day = string = struct
  type day = string

  type hour = int
  and minute = int

  datatype span =
    Whole of day
  | Part of day * hour * hour

  exception Closed of day

  fun today () = "Mon"

  fun tomorrow "Fri" = "Mon"
    | tomorrow day = day
end

functor Rules (
  structure Calendar : CALENDAR
  val opens : Calendar.hour
) : sig
  val late : Calendar.hour -> bool
end = struct
  fun late hour = hour > opens
end
and Empty () = struct
  
end
and Same (Calendar : CALENDAR) = Calendar

structure Harbour = Rules (
  structure Calendar = Days
  val opens = 7
)

structure Other = Same (Days : CALENDAR)
and Third = let
  structure Hidden = Days
in
  Hidden
end
