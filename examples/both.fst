// Not proved: where a is true and b is false, the body gives true, and ensures asks for a && b.
fun both (a : bool) (b : bool) : PURE bool ensures result = (a && b)
{ if a then if b then true else true else false }
