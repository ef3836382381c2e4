// Run it: ./fstar run examples/and.fst 3 true true
// Every goal is proved first. Then main is run: each `if`, each `let` and the value at the end cost one unit of fuel,
// so 2 units are out of fuel here, and enough for `false true`.
fun main (a : bool) (b : bool) : PURE bool
  ensures result = (a && b)
{ if a then if b then true else false else false }
