infix 6 ++ infixr 5 ** nonfix mod
fun x++y=x+y and (x**y) z=x y z|(x**[])_ = x
(* A badge that nobody claims is revoked on the third day. *)
fun revoke(day,{lost,holder=SOME name,...}:badge)=if lost andalso day>3 orelse not(known name)
  then(log name;count:= !count+1;true)else if day<0 then raise Fail("day "^Int.toString day) else false
 |revoke _ = false
val rec even=fn 0=>true|n=>odd(n-1) and rec odd=fn 0=>false|n=>even(n-1)
val total=let val(a,b)=(1,2) fun f x=x*2;in print"sum";f a+f b end handle Overflow=>0|Fail _=>(while !busy do wait();1)
val table=[("a",#"b",0xFF,0w7,~1.5e~3),("",#"\n",1,0w0,0.0)]
val first = #1(hd table) and fields=map #holder[badge,{holder="x",level=2}]
datatype 'a tree=Leaf|Node of 'a tree*'a*'a tree withtype 'a forest='a tree list
abstype key=Key of int with fun make n=Key n fun value(Key n)=n end
exception Late and Early of int and Missed=Late
local open List String in val joined=concat end
val size=case t of Leaf=>0|Node(l,_,r)=>size l+1+size r
do print"ready\n"
val orPattern=fn(Mon|Fri)=>1|_=>2 and vector= #[1,2] and pun={a,b=1}
val piped=names|>map trim|>filter known
