(* What is left open while a branch still argues. *)
signature OPEN=sig
  ...
  type t=... and u=_
  val f:t->_
  datatype v=datatype t
end where Inner=Outer
structure Draft=struct
  ...
  val later=(...,_) and both=foldl(op andalso) true[a,op orelse]
  val head::tail=[x,y] and #[first,(z:int)as _]=v
end
check(Draft.later:(int->int)list);
