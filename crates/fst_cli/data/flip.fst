// Not proved: where b is true, the result isn't b.
fun flip (b : bool) : PURE bool ensures result = b { not b }
