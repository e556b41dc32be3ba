// Folding constants, also those that variables are bound to, keeps the value of an expression:
// examples/proofs/variables.scala in Dafny. Numbers are `int`, whose sums don't wrap. No clause differs.

datatype Expr = Number(n: int) | Variable(name: int) | Sum(left: Expr, right: Expr)
  | Let(name: int, bound: Expr, body: Expr)

// Names and what they stand for; an entry hides those behind it.
datatype Env = Bind(name: int, value: int, rest: Env) | Empty

predicate has(env: Env, x: int)
  decreases env
{
  match env
  case Bind(y, _, rest) => x == y || has(rest, x)
  case Empty => false
}

// A name that is bound to nothing stands for 0.
function lookup(env: Env, x: int): int
  decreases env
{
  match env
  case Bind(y, n, rest) => if x == y then n else lookup(rest, x)
  case Empty => 0
}

function value(e: Expr, env: Env): int
  decreases e
{
  match e
  case Number(n) => n
  case Variable(x) => lookup(env, x)
  case Sum(a, b) => value(a, env) + value(b, env)
  case Let(x, a, b) => value(b, Bind(x, value(a, env), env))
}

// The entries of other names.
function without(known: Env, x: int): Env
  decreases known
{
  match known
  case Bind(y, n, rest) => if x == y then without(rest, x) else Bind(y, n, without(rest, x))
  case Empty => Empty
}

// The sum of two folded expressions.
function sum(a: Expr, b: Expr): Expr
{
  if a.Number? && b.Number? then Number(a.n + b.n)
  else if a == Number(0) then b
  else if b == Number(0) then a
  else Sum(a, b)
}

// What is known in the body of a binding of x to a folded expression.
function bound(known: Env, x: int, e: Expr): Env
{
  if e.Number? then Bind(x, e.n, without(known, x)) else without(known, x)
}

function folded(e: Expr, known: Env): Expr
  decreases e
{
  match e
  case Number(_) => e
  case Variable(x) => if has(known, x) then Number(lookup(known, x)) else e
  case Sum(a, b) => sum(folded(a, known), folded(b, known))
  case Let(x, a, b) => var c := folded(a, known); Let(x, c, folded(b, bound(known, x, c)))
}

// What is known there where e isn't folded yet.
function inBody(known: Env, x: int, e: Expr): Env
{
  bound(known, x, folded(e, known))
}

// What is known is so.
predicate isTrue(known: Env, env: Env)
  decreases known
{
  match known
  case Bind(x, n, rest) => lookup(env, x) == n && isTrue(rest, env)
  case Empty => true
}

lemma knownIsTrue(known: Env, env: Env, x: int)
  requires isTrue(known, env)
  ensures !has(known, x) || lookup(known, x) == lookup(env, x)
  decreases known
{
  match known
  case Bind(_, _, rest) => knownIsTrue(rest, env, x);
  case Empty =>
}

// What is known of other names is so where x is bound.
lemma othersAreTrue(known: Env, env: Env, x: int, n: int)
  requires isTrue(known, env)
  ensures isTrue(without(known, x), Bind(x, n, env))
  decreases known
{
  match known
  case Bind(_, _, rest) => othersAreTrue(rest, env, x, n);
  case Empty =>
}

lemma bodyIsTrue(known: Env, env: Env, x: int, e: Expr)
  requires isTrue(known, env)
  ensures isTrue(inBody(known, x, e), Bind(x, value(folded(e, known), env), env))
{
  othersAreTrue(known, env, x, value(folded(e, known), env));
}

lemma sumKeepsValue(a: Expr, b: Expr, known: Env, env: Env)
  ensures value(sum(folded(a, known), folded(b, known)), env) ==
    value(folded(a, known), env) + value(folded(b, known), env)
{
}

lemma keepsValue(e: Expr, known: Env, env: Env)
  requires isTrue(known, env)
  ensures value(folded(e, known), env) == value(e, env)
  decreases e
{
  match e
  case Number(_) =>
  case Variable(x) => knownIsTrue(known, env, x);
  case Sum(a, b) => keepsValue(a, known, env); keepsValue(b, known, env); sumKeepsValue(a, b, known, env);
  case Let(x, a, b) =>
    keepsValue(a, known, env);
    bodyIsTrue(known, env, x, a);
    keepsValue(b, inBody(known, x, a), Bind(x, value(a, env), env));
}

lemma isRight(e: Expr)
  ensures value(folded(e, Empty), Empty) == value(e, Empty)
{
  keepsValue(e, Empty, Empty);
}
