//! Each form from source to text: what stays as it is, and what gets other lines.

mod common;

use common::formatted;

fn stay(texts: &[&str]) {
    for text in texts {
        assert_eq!(formatted(text), *text);
    }
}

fn become_lines(texts: &[(&str, &str)]) {
    for (text, expected) in texts {
        assert_eq!(formatted(text), *expected, "{text}");
    }
}

#[test]
fn types() {
    stay(&[
        "type t = int",
        "type 'a t = ('a, int) u list * { a : int -> (int -> int), 1 : t } -> t\nand u = A.t",
        "type ('a, ''b) t = 'a * ''b",
        "type t = ... -> _",
        "type t = {  }",
        "val x : int <*> t = y",
    ]);
}

#[test]
fn patterns() {
    stay(&[
        "val { a, b = c, d : int as e, ... } = r",
        "val (x :: xs, #[y], [], \"s\", #\"c\", ~1, 0xFF, 0w9) = x",
        "val f = fn (SOME (A | B) | _ as NONE) => ()",
        "val ([A | B, C x | D], { a = #[A | B] }) = x",
        "val x as A.B y : t as z = f",
        "val op+ = op-",
        "val op before = op=",
        "infix 3 &&\n\nval a && b :: c = d",
    ]);
}

#[test]
fn atomic_expressions() {
    stay(&[
        "val x = (1, 0w1, 0xF, 1.5e~3, \"a\\n\\ \\b\", #\"c\", _, ..., ())",
        "val x = op andalso (op orelse, op+, op div, A.B.c, [], [1], #[1, 2])",
        "val x = #first { first = 1, second } before #1 (a, b)",
        "val x = !r + !(f y) - ! ! !! y",
    ]);
}

#[test]
fn expressions_on_one_line() {
    stay(&[
        "val x = a + b * c :: d @ e = f",
        "val x = not a andalso b orelse c andalso !r = \"\" ^ \"\\\"\"",
        "val x = f x y : int list : t",
        "val x = raise E",
        "val x = fn 0 => 1 | n => n * f (n - 1)",
        "val x = a andalso fn y => y orelse z",
        "val x = a orelse raise E andalso b",
        "val x = f (fn x => x) y",
    ]);
}

#[test]
fn expressions_on_several_lines() {
    become_lines(&[
        (
            "val x=if a then b else if c then d else e",
            "val x =\n  if a then\n    b\n  else if c then\n    d\n  else\n    e",
        ),
        (
            "val x = a andalso if b then c else d",
            "val x = a andalso if b then\n  c\nelse\n  d",
        ),
        ("val x = (f (); g ())", "val x =\n  (\n    f ();\n    g ()\n  )"),
        (
            "val x = let val y=1 val z=2; in y; z; end",
            "val x =\n  let\n    val y = 1\n    val z = 2;\n  in\n    y;\n    z;\n  end",
        ),
        ("val x = f y handle E => 1 | _ => 2", "val x =\n  f y handle\n    E => 1\n  | _ => 2"),
        ("val x = while a do b", "val x =\n  while a do b"),
        ("val x = a |> f |> g", "val x = a\n  |> f\n  |> g"),
        (
            "val x = case y of A=>if a then b else c|B=>d",
            "val x =\n  case y of\n    A =>\n      if a then\n        b\n      else\n        c\n  | B => d",
        ),
    ]);
}

#[test]
fn values_and_functions() {
    stay(&[
        "val x = 1",
        "val x = 1;",
        "val rec f = fn x => x\nand rec g = f\nand h = g",
        "fun f 0 = 1\n  | f n = n",
        "fun 'a id (x : 'a) : 'a = x\nand const x y = x",
        "fun ('a, 'b) pair (x : 'a) y = (x, y)",
        "fun op + (x, y) = x",
        "fun (x :: xs) @ ys = x\n  | [] @ ys = ys",
        "fun (x o y) z = x\n  | (x o (y, z)) w v : t = x",
        "do print \"x\"",
        "...",
    ]);
}

#[test]
fn datatypes_and_exceptions() {
    stay(&[
        "datatype 'a t = A of 'a",
        "datatype t = datatype A.t",
        "exception E\nand F of int\nand G = A.E",
        "open A B.C",
        "abstype t = T of int with val x = T 1 end",
    ]);
    become_lines(&[
        ("datatype t=A|B of int and u=C", "datatype t =\n  A\n| B of int\nand u = C"),
        (
            "datatype t=A of u withtype u=int*t and v=u",
            "datatype t = A of u\nwithtype u = int * t\nand v = u",
        ),
        (
            "abstype t=A|B withtype u=t with val x=A val y=B end",
            "abstype t =\n  A\n| B\nwithtype u = t with val x = A\nval y = B end",
        ),
        ("local val x = 1 in val y = x end", "local\n  val x = 1\nin\n  val y = x\nend"),
    ]);
}

#[test]
fn fixities() {
    stay(&["infix 5 ++ --", "infixr ::", "infixr 0 $ =", "nonfix div + -"]);
}

#[test]
fn structures() {
    become_lines(&[
        (
            "structure S:>A=struct val x=1 val y=2 end",
            "structure S :> A = struct\n  val x = 1\n\n  val y = 2\nend",
        ),
        ("structure S:A=B.C and T=U:V:>W", "structure S : A = B.C\nand T = U : V :> W"),
        (
            "structure S=let structure A=B in A end",
            "structure S = let\n  structure A = B\nin\n  A\nend",
        ),
        ("structure S=F(A.B)", "structure S = F (A.B)"),
        ("structure S=F()", "structure S = F ()"),
        ("structure S=F(struct end:A)", "structure S = F (struct\n  \nend : A)"),
        ("structure S=F(val x=1;type t=int)", "structure S = F (\n  val x = 1;\n  type t = int\n)"),
    ]);
}

#[test]
fn functors() {
    become_lines(&[
        ("functor F(X:A)=X", "functor F (X : A) = X"),
        (
            "functor F():>A=struct end and G(X:A)=X",
            "functor F () :> A = struct\n  \nend\nand G (X : A) = X",
        ),
        (
            "functor F(type t val x:t;structure A:B):C=A",
            "functor F (\n  type t\n  val x : t;\n  structure A : B\n) : C = A",
        ),
        (
            "functor F(type t type u sharing type t=u val x:t)=A",
            "functor F (\n  type t\n  type u\n  sharing type t = u\n\n  val x : t\n) = A",
        ),
    ]);
}

#[test]
fn signatures() {
    stay(&[
        "signature S = A",
        "signature S = A\nand T = B where type 'a A.t = 'a list where B = C",
    ]);
    become_lines(&[
        (
            "signature S=sig val x:int and + :t type t and u=int eqtype 'a v exception E of t and F end",
            "signature S = sig\n  val x : int\n  and + : t\n  type t\n  and u = int\n  eqtype 'a v\n  exception E of t\n  and F\nend",
        ),
        (
            "signature S=sig datatype t=A|B datatype u=datatype t structure A:B and C:D where type t=u include E F; include sig end end",
            "signature S = sig\n  datatype t =\n    A\n  | B\n  datatype u = datatype t\n  structure A : B\n  and C : D where type t = u\n  include E F;\n  include sig\n    \n  end\nend",
        ),
        (
            "signature S=sig type t type u;sharing type t=u=A.v sharing type u=A.w;type x end",
            "signature S = sig\n  type t\n  type u;\n  sharing type t = u = A.v\n  sharing type u = A.w;\n  type x\nend",
        ),
    ]);
}

#[test]
fn expressions_at_the_top() {
    stay(&["f x", "f x;\n\nval y = 1;\n\nif a then\n  b\nelse\n  c;\n\n!x"]);
}

#[test]
fn comments() {
    become_lines(&[
        ("(* a (* b *) c *) val x = 1", "(* a (* b *) c *)\nval x = 1"),
        (
            "structure S=struct (* a *) val x=1 (* b *) fun f x=x end",
            "structure S = struct\n  (* a *)\n  val x = 1\n\n  (* b *)\n  fun f x = x\nend",
        ),
    ]);
}

#[test]
fn sample() {
    let text = include_str!("../../../examples/sample.sml");
    assert_eq!(formatted(text), include_str!("../../../examples/sample.formatted.sml"));
}
