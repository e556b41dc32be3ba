// The code that is made of a term leaves the term's value on the stack: examples/proofs/machine.scala in Dafny.
// Numbers are `int`, which has no `~`: its value in 32 bits, -n - 1, stands in its place.

datatype Term = Number(n: int) | Flipped(t: Term)

datatype Code = Push(n: int, rest: Code) | Flip(rest: Code) | Stop

datatype Stack = Top(n: int, below: Stack) | Empty

function value(t: Term): int
  decreases t
{
  match t
  case Number(n) => n
  case Flipped(u) => -value(u) - 1
}

// The code of a term, before the code that goes on.
function code(t: Term, rest: Code): Code
  decreases t
{
  match t
  case Number(n) => Push(n, rest)
  case Flipped(u) => code(u, Flip(rest))
}

function run(c: Code, s: Stack): Stack
  decreases c
{
  match c
  case Push(n, rest) => run(rest, Top(n, s))
  case Flip(rest) => (match s
    case Top(n, below) => run(rest, Top(-n - 1, below))
    case Empty => s)
  case Stop => s
}

lemma runCode(t: Term, rest: Code, s: Stack)
  ensures run(code(t, rest), s) == run(rest, Top(value(t), s))
  decreases t
{
  match t
  case Number(_) =>
  case Flipped(u) => runCode(u, Flip(rest), s);
}

lemma isRight(t: Term)
  ensures run(code(t, Stop), Empty) == Top(value(t), Empty)
{
  runCode(t, Stop, Empty);
}
