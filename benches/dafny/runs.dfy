// A list is got back from its run lengths, and run lengths from their list: examples/proofs/runs.scala in Dafny.
// Numbers are `int`, which don't wrap: `length` and `total` have no greatest value here. No clause differs.

datatype List = Cons(head: int, tail: List) | Nil

// A run is a number and how often it comes, which a byte can tell.
datatype Runs = Run(times: int, value: int, rest: Runs) | End

// x, n times, before the list.
function repeat(n: int, x: int, l: List): List
  decreases n
{
  if n <= 0 then l else Cons(x, repeat(n - 1, x, l))
}

function decode(c: Runs): List
  decreases c
{
  match c
  case Run(n, x, rest) => repeat(n, x, decode(rest))
  case End => Nil
}

// One number more in front.
function push(x: int, c: Runs): Runs
{
  match c
  case Run(n, y, rest) => if x == y && n < 255 then Run(n + 1, y, rest) else Run(1, x, c)
  case End => Run(1, x, c)
}

function encode(l: List): Runs
  ensures isNormal(encode(l))
  decreases l
{
  match l
  case Cons(h, t) => push(h, encode(t))
  case Nil => End
}

// No run is empty or longer than 255, and none could be part of the next one.
predicate isNormal(c: Runs)
  decreases c
{
  match c
  case Run(n, x, rest) => 1 <= n && n <= 255 && isNormal(rest) && (match rest
    case Run(m, y, _) => x != y || m == 255
    case End => true)
  case End => true
}

lemma pushDecodes(x: int, c: Runs)
  requires isNormal(c)
  ensures decode(push(x, c)) == Cons(x, decode(c))
{
}

lemma getsBack(l: List)
  ensures decode(encode(l)) == l
  decreases l
{
  match l
  case Cons(h, t) => getsBack(t); pushDecodes(h, encode(t));
  case Nil =>
}

// A number n times before a list is a run before its runs, where these begin with another one or a full one.
lemma repeatEncodes(n: int, x: int, l: List, c: Runs)
  requires 1 <= n && n <= 255 && encode(l) == c && isNormal(Run(n, x, c))
  ensures encode(repeat(n, x, l)) == Run(n, x, c)
  decreases n
{
  if n != 1 {
    repeatEncodes(n - 1, x, l, c);
  }
}

lemma runsGetBack(c: Runs)
  requires isNormal(c)
  ensures encode(decode(c)) == c
  decreases c
{
  match c
  case Run(n, x, rest) => runsGetBack(rest); repeatEncodes(n, x, decode(rest), rest);
  case End =>
}

// Different runs come from different lists.
lemma sameRuns(c: Runs, d: Runs)
  requires isNormal(c) && isNormal(d) && decode(c) == decode(d)
  ensures c == d
{
  runsGetBack(c);
  runsGetBack(d);
}

function length(l: List): int
  decreases l
{
  match l
  case Cons(_, t) => 1 + length(t)
  case Nil => 0
}

// How many numbers the runs have.
function total(c: Runs): int
  decreases c
{
  match c
  case Run(n, _, rest) => n + total(rest)
  case End => 0
}

lemma sameTotal(l: List)
  ensures total(encode(l)) == length(l)
  decreases l
{
  match l
  case Cons(_, t) => sameTotal(t);
  case Nil =>
}
