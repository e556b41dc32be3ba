// Two functions that call each other say whether a number is even: examples/proofs/parity.scala in Dafny.
// Numbers are `int`, which has no `&`: the rest by 2 stands in place of the lowest bit.

predicate even(x: int)
  requires 0 <= x
  ensures even(x) == (x % 2 == 0)
  decreases x
{
  if x == 0 then true else odd(x - 1)
}

predicate odd(x: int)
  requires 0 <= x
  ensures odd(x) == (x % 2 == 1)
  decreases x
{
  if x == 0 then false else even(x - 1)
}

// The greatest even number up to x.
function down(x: int): int
  requires 0 <= x
  ensures 0 <= down(x) && x - 1 <= down(x) && even(down(x))
{
  if even(x) then x else x - 1
}
