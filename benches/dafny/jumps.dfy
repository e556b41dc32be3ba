// Code with jumps that is made of an expression leaves the expression's value on the stack:
// examples/proofs/jumps.scala in Dafny. Numbers are `int`. No clause differs.

datatype Expr = Number(n: int) | Input | Choice(test: Expr, yes: Expr, no: Expr)

// How many instructions a jump leaves out.
datatype Nat = Zero | Next(n: Nat)

datatype Instr = Push(n: int) | Load | Jump(over: Nat) | JumpIfZero(over: Nat)

datatype Code = Step(first: Instr, rest: Code) | Stop

datatype Stack = Top(n: int, below: Stack) | Empty

// The value where the input is x.
function value(e: Expr, x: int): int
  decreases e
{
  match e
  case Number(n) => n
  case Input => x
  case Choice(c, a, b) => if value(c, x) != 0 then value(a, x) else value(b, x)
}

// The number of instructions of an expression, and n more.
function size(e: Expr, n: Nat): Nat
  decreases e
{
  match e
  case Number(_) => Next(n)
  case Input => Next(n)
  case Choice(c, a, b) => size(c, Next(size(a, Next(size(b, n)))))
}

// The code of an expression, before the code that goes on. A test that is zero jumps over the first branch and over the
// jump behind it, which leaves out the second branch.
function code(e: Expr, rest: Code): Code
  decreases e
{
  match e
  case Number(n) => Step(Push(n), rest)
  case Input => Step(Load, rest)
  case Choice(c, a, b) =>
    var second := Step(Jump(size(b, Zero)), code(b, rest));
    code(c, Step(JumpIfZero(size(a, Next(Zero))), code(a, second)))
}

// Leaves out as many instructions as are jumped over, and runs what follows; the input is x.
function run(c: Code, over: Nat, s: Stack, x: int): Stack
  decreases c
{
  match c
  case Step(i, rest) => (match over
    case Next(n) => run(rest, n, s, x)
    case Zero => (match i
      case Push(n) => run(rest, over, Top(n, s), x)
      case Load => run(rest, over, Top(x, s), x)
      case Jump(n) => run(rest, n, s, x)
      case JumpIfZero(n) => (match s
        case Top(y, below) => run(rest, if y == 0 then n else over, below, x)
        case Empty => s)))
  case Stop => s
}

// What stands behind the first branch of a choice: a jump over the second one, and that.
function second(b: Expr, rest: Code): Code
{
  Step(Jump(size(b, Zero)), code(b, rest))
}

// What stands behind the test of a choice.
function first(a: Expr, b: Expr, rest: Code): Code
{
  Step(JumpIfZero(size(a, Next(Zero))), code(a, second(b, rest)))
}

// A jump as long as the code of an expression comes to the code behind it.
lemma jumpsOver(e: Expr, rest: Code, n: Nat, s: Stack, x: int)
  ensures run(code(e, rest), size(e, n), s, x) == run(rest, n, s, x)
  decreases e
{
  match e
  case Number(_) =>
  case Input =>
  case Choice(c, a, b) =>
    var over := Next(size(b, n));
    jumpsOver(c, first(a, b, rest), Next(size(a, over)), s, x);
    jumpsOver(a, second(b, rest), over, s, x);
    jumpsOver(b, rest, n, s, x);
}

// A test that is zero comes to the second branch.
lemma comesToSecond(a: Expr, b: Expr, rest: Code, s: Stack, x: int)
  ensures run(first(a, b, rest), Zero, Top(0, s), x) == run(code(b, rest), Zero, s, x)
{
  jumpsOver(a, second(b, rest), Next(Zero), s, x);
}

// From the first branch a jump leads behind the second one.
lemma leavesChoice(b: Expr, rest: Code, s: Stack, x: int)
  ensures run(second(b, rest), Zero, s, x) == run(rest, Zero, s, x)
{
  jumpsOver(b, rest, Zero, s, x);
}

lemma runsCode(e: Expr, rest: Code, s: Stack, x: int)
  ensures run(code(e, rest), Zero, s, x) == run(rest, Zero, Top(value(e, x), s), x)
  decreases e
{
  match e
  case Number(_) =>
  case Input =>
  case Choice(c, a, b) =>
    runsCode(c, first(a, b, rest), s, x);
    if value(c, x) == 0 {
      comesToSecond(a, b, rest, s, x);
      runsCode(b, rest, s, x);
    } else {
      runsCode(a, second(b, rest), s, x);
      leavesChoice(b, rest, Top(value(a, x), s), x);
    }
}

lemma isRight(e: Expr, x: int)
  ensures run(code(e, Stop), Zero, Empty, x) == Top(value(e, x), Empty)
{
  runsCode(e, Stop, Empty, x);
}
