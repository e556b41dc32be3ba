// Folding what is constant in an expression keeps its value: examples/proofs/constant_folding.scala in Dafny.
// Numbers are `int`, whose sums don't wrap; over bit vectors of 32 bits Dafny comes to no end. No clause differs.

datatype Expr = Number(n: int) | Variable | Sum(left: Expr, right: Expr)

function value(e: Expr, x: int): int
  decreases e
{
  match e
  case Number(n) => n
  case Variable => x
  case Sum(a, b) => value(a, x) + value(b, x)
}

// The sum of two folded expressions.
function sum(a: Expr, b: Expr): Expr
{
  if a == Number(0) then b
  else if b == Number(0) then a
  else if a.Number? && b.Number? then Number(a.n + b.n)
  else Sum(a, b)
}

function folded(e: Expr): Expr
  decreases e
{
  match e
  case Number(_) => e
  case Variable => e
  case Sum(a, b) => sum(folded(a), folded(b))
}

lemma sumKeepsValue(a: Expr, b: Expr, x: int)
  ensures value(sum(a, b), x) == value(a, x) + value(b, x)
{
}

lemma keepsValue(e: Expr, x: int)
  ensures value(folded(e), x) == value(e, x)
  decreases e
{
  match e
  case Number(_) =>
  case Variable =>
  case Sum(a, b) => keepsValue(a, x); keepsValue(b, x); sumKeepsValue(folded(a), folded(b), x);
}
