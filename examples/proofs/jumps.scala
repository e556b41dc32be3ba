// Proved: code with jumps that is made of an expression leaves the expression's value on the stack.
// pureproof examples/proofs/jumps.scala
// 14 valid, 0 invalid, 0 open, 0 depending
import stainless.lang._

object Jumps {
  sealed abstract class Expr
  case class Number(n: Int) extends Expr
  case class Input() extends Expr
  case class Choice(test: Expr, yes: Expr, no: Expr) extends Expr

  // How many instructions a jump leaves out.
  sealed abstract class Nat
  case class Zero() extends Nat
  case class Next(n: Nat) extends Nat

  sealed abstract class Instr
  case class Push(n: Int) extends Instr
  case class Load() extends Instr
  case class Jump(over: Nat) extends Instr
  case class JumpIfZero(over: Nat) extends Instr

  sealed abstract class Code
  case class Step(first: Instr, rest: Code) extends Code
  case class Stop() extends Code

  sealed abstract class Stack
  case class Top(n: Int, below: Stack) extends Stack
  case class Empty() extends Stack

  // The value where the input is x.
  def value(e: Expr, x: Int): Int = {
    decreases(e)
    e match {
      case Number(n) => n
      case Input() => x
      case Choice(c, a, b) => if (value(c, x) != 0) value(a, x) else value(b, x)
    }
  }

  // The number of instructions of an expression, and n more.
  def size(e: Expr, n: Nat): Nat = {
    decreases(e)
    e match {
      case Choice(c, a, b) => size(c, Next(size(a, Next(size(b, n)))))
      case _ => Next(n)
    }
  }

  // The code of an expression, before the code that goes on. A test that is zero jumps over the first branch and over
  // the jump behind it, which leaves out the second branch.
  def code(e: Expr, rest: Code): Code = {
    decreases(e)
    e match {
      case Number(n) => Step(Push(n), rest)
      case Input() => Step(Load(), rest)
      case Choice(c, a, b) =>
        val second = Step(Jump(size(b, Zero())), code(b, rest))
        code(c, Step(JumpIfZero(size(a, Next(Zero()))), code(a, second)))
    }
  }

  // Leaves out as many instructions as are jumped over, and runs what follows; the input is x.
  def run(c: Code, over: Nat, s: Stack, x: Int): Stack = {
    decreases(c)
    c match {
      case Step(i, rest) => over match {
        case Next(n) => run(rest, n, s, x)
        case Zero() => i match {
          case Push(n) => run(rest, over, Top(n, s), x)
          case Load() => run(rest, over, Top(x, s), x)
          case Jump(n) => run(rest, n, s, x)
          case JumpIfZero(n) => s match {
            case Top(y, below) => run(rest, if (y == 0) n else over, below, x)
            case Empty() => s
          }
        }
      }
      case Stop() => s
    }
  }

  // What stands behind the first branch of a choice: a jump over the second one, and that.
  def second(b: Expr, rest: Code): Code = Step(Jump(size(b, Zero())), code(b, rest))

  // What stands behind the test of a choice.
  def first(a: Expr, b: Expr, rest: Code): Code = Step(JumpIfZero(size(a, Next(Zero()))), code(a, second(b, rest)))

  def leavesFirst(a: Expr, b: Expr, rest: Code, n: Nat, s: Stack, x: Int): Boolean = {
    run(first(a, b, rest), Next(size(a, n)), s, x) == run(code(a, second(b, rest)), size(a, n), s, x)
  }.holds

  def leavesSecond(b: Expr, rest: Code, n: Nat, s: Stack, x: Int): Boolean = {
    run(second(b, rest), Next(n), s, x) == run(code(b, rest), n, s, x)
  }.holds

  // A jump as long as the code of an expression comes to the code behind it.
  def jumpsOver(e: Expr, rest: Code, n: Nat, s: Stack, x: Int): Boolean = {
    decreases(e)
    val parts = e match {
      case Choice(c, a, b) =>
        val end = size(b, n)
        val over = Next(end)
        jumpsOver(c, first(a, b, rest), Next(size(a, over)), s, x) && leavesFirst(a, b, rest, over, s, x) &&
          jumpsOver(a, second(b, rest), over, s, x) && leavesSecond(b, rest, end, s, x) && jumpsOver(b, rest, n, s, x)
      case _ => true
    }
    parts && run(code(e, rest), size(e, n), s, x) == run(rest, n, s, x)
  }.holds

  // A test that isn't zero goes on to the first branch.
  def goesOn(y: Int, a: Expr, b: Expr, rest: Code, s: Stack, x: Int): Boolean = {
    require(y != 0)
    run(first(a, b, rest), Zero(), Top(y, s), x) == run(code(a, second(b, rest)), Zero(), s, x)
  }.holds

  // A test that is zero comes to the second branch.
  def comesToSecond(a: Expr, b: Expr, rest: Code, s: Stack, x: Int): Boolean = {
    val one = Next(Zero())
    jumpsOver(a, second(b, rest), one, s, x) && leavesSecond(b, rest, Zero(), s, x) &&
      run(first(a, b, rest), Zero(), Top(0, s), x) == run(code(a, second(b, rest)), size(a, one), s, x) &&
      run(first(a, b, rest), Zero(), Top(0, s), x) == run(code(b, rest), Zero(), s, x)
  }.holds

  // From the first branch a jump leads behind the second one.
  def leavesChoice(b: Expr, rest: Code, s: Stack, x: Int): Boolean = {
    jumpsOver(b, rest, Zero(), s, x) && run(second(b, rest), Zero(), s, x) == run(rest, Zero(), s, x)
  }.holds

  def runsCode(e: Expr, rest: Code, s: Stack, x: Int): Boolean = {
    decreases(e)
    val parts = e match {
      case Choice(c, a, b) =>
        val y = value(c, x)
        val end = second(b, rest)
        runsCode(c, first(a, b, rest), s, x) &&
          (if (y == 0) comesToSecond(a, b, rest, s, x) && runsCode(b, rest, s, x)
          else goesOn(y, a, b, rest, s, x) && runsCode(a, end, s, x) && leavesChoice(b, rest, Top(value(a, x), s), x))
      case _ => true
    }
    parts && run(code(e, rest), Zero(), s, x) == run(rest, Zero(), Top(value(e, x), s), x)
  }.holds

  def isRight(e: Expr, x: Int): Boolean = {
    val result = Top(value(e, x), Empty())
    runsCode(e, Stop(), Empty(), x) && run(Stop(), Zero(), result, x) == result &&
      run(code(e, Stop()), Zero(), Empty(), x) == result
  }.holds
}
