// Two functions that are proved: each ensures says what the body gives.
fun both (a : bool) (b : bool) : PURE bool
  ensures result ==> a
{ let first = a && b in if first then b else false }

fun swap (a : bool) (b : bool) : PURE bool
  requires a != b
  ensures result = not a
{ b }
