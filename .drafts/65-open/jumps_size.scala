// All steps are written out and it is valid with --gates 4000000, but open without. Of each of four calls of itself the
// whole body is opened, and the estimate grows as the square of what is looked at and called. Missing: of a call of a
// claim (`holds`) the last part of its `&&` is supposed, and the rest of its body isn't opened.
import stainless.lang._

object Jumps {
  sealed abstract class Expr
  case class Number(n: Int) extends Expr
  case class Negated(e: Expr) extends Expr
  case class Choice(test: Expr, yes: Expr, no: Expr) extends Expr

  // How many instructions a jump leaves out.
  sealed abstract class Nat
  case class Zero() extends Nat
  case class Next(n: Nat) extends Nat

  sealed abstract class Instr
  case class Push(n: Int) extends Instr
  case class Negate() extends Instr
  case class Jump(over: Nat) extends Instr
  case class JumpIfZero(over: Nat) extends Instr

  sealed abstract class Code
  case class Step(first: Instr, rest: Code) extends Code
  case class Stop() extends Code

  sealed abstract class Stack
  case class Top(n: Int, below: Stack) extends Stack
  case class Empty() extends Stack

  def value(e: Expr): Int = {
    decreases(e)
    e match {
      case Number(n) => n
      case Negated(a) => -value(a)
      case Choice(c, a, b) => if (value(c) != 0) value(a) else value(b)
    }
  }

  // The number of instructions of an expression, and n more.
  def size(e: Expr, n: Nat): Nat = {
    decreases(e)
    e match {
      case Number(_) => Next(n)
      case Negated(a) => size(a, Next(n))
      case Choice(c, a, b) => size(c, Next(size(a, Next(size(b, n)))))
    }
  }

  // The code of an expression, before the code that goes on. A test that is zero jumps over the first branch and over
  // the jump behind it, which leaves out the second branch.
  def code(e: Expr, rest: Code): Code = {
    decreases(e)
    e match {
      case Number(n) => Step(Push(n), rest)
      case Negated(a) => code(a, Step(Negate(), rest))
      case Choice(c, a, b) =>
        val second = Step(Jump(size(b, Zero())), code(b, rest))
        code(c, Step(JumpIfZero(size(a, Next(Zero()))), code(a, second)))
    }
  }

  // Leaves out as many instructions as are jumped over, and runs what follows.
  def run(c: Code, over: Nat, s: Stack): Stack = {
    decreases(c)
    c match {
      case Step(i, rest) => over match {
        case Next(n) => run(rest, n, s)
        case Zero() => i match {
          case Push(n) => run(rest, over, Top(n, s))
          case Negate() => s match {
            case Top(x, below) => run(rest, over, Top(-x, below))
            case Empty() => s
          }
          case Jump(n) => run(rest, n, s)
          case JumpIfZero(n) => s match {
            case Top(x, below) => run(rest, if (x == 0) n else over, below)
            case Empty() => s
          }
        }
      }
      case Stop() => s
    }
  }

  def leavesOut(i: Instr, rest: Code, n: Nat, s: Stack): Boolean = {
    run(Step(i, rest), Next(n), s) == run(rest, n, s)
  }.holds

  // A jump as long as the code of an expression comes to the code behind it.
  def jumpsOver(e: Expr, rest: Code, n: Nat, s: Stack): Boolean = {
    decreases(e)
    val parts = e match {
      case Number(_) => true
      case Negated(a) =>
        val last = Negate()
        jumpsOver(a, Step(last, rest), Next(n), s) && leavesOut(last, rest, n, s)
      case Choice(c, a, b) =>
        val no = code(b, rest)
        val jump = Jump(size(b, Zero()))
        val yes = code(a, Step(jump, no))
        val test = JumpIfZero(size(a, Next(Zero())))
        val over = size(b, n)
        val both = size(a, Next(over))
        jumpsOver(c, Step(test, yes), Next(both), s) && leavesOut(test, yes, both, s) &&
          jumpsOver(a, Step(jump, no), Next(over), s) && leavesOut(jump, no, over, s) && jumpsOver(b, rest, n, s)
    }
    parts && run(code(e, rest), size(e, n), s) == run(rest, n, s)
  }.holds

  def negates(x: Int, rest: Code, s: Stack): Boolean = {
    run(Step(Negate(), rest), Zero(), Top(x, s)) == run(rest, Zero(), Top(-x, s))
  }.holds

  def tests(x: Int, n: Nat, rest: Code, s: Stack): Boolean = {
    run(Step(JumpIfZero(n), rest), Zero(), Top(x, s)) == run(rest, if (x == 0) n else Zero(), s)
  }.holds

  // From the first branch a jump leads behind the second one.
  def leavesChoice(b: Expr, rest: Code, s: Stack): Boolean = {
    jumpsOver(b, rest, Zero(), s) && run(Step(Jump(size(b, Zero())), code(b, rest)), Zero(), s) == run(rest, Zero(), s)
  }.holds

  // A test that is zero leads to the second branch.
  def comesToSecond(a: Expr, no: Code, jump: Instr, s: Stack): Boolean = {
    val second = Step(jump, no)
    val one = Next(Zero())
    jumpsOver(a, second, one, s) && leavesOut(jump, no, Zero(), s) &&
      run(code(a, second), size(a, one), s) == run(no, Zero(), s)
  }.holds

  def runsCode(e: Expr, rest: Code, s: Stack): Boolean = {
    decreases(e)
    val parts = e match {
      case Number(_) => true
      case Negated(a) => runsCode(a, Step(Negate(), rest), s) && negates(value(a), rest, s)
      case Choice(c, a, b) =>
        val no = code(b, rest)
        val jump = Jump(size(b, Zero()))
        val second = Step(jump, no)
        val yes = code(a, second)
        val both = size(a, Next(Zero()))
        val x = value(c)
        runsCode(c, Step(JumpIfZero(both), yes), s) && tests(x, both, yes, s) &&
          (if (x != 0) runsCode(a, second, s) && leavesChoice(b, rest, Top(value(a), s))
          else comesToSecond(a, no, jump, s) && runsCode(b, rest, s))
    }
    parts && run(code(e, rest), Zero(), s) == run(rest, Zero(), Top(value(e), s))
  }.holds

  def isRight(e: Expr): Boolean = {
    val result = Top(value(e), Empty())
    runsCode(e, Stop(), Empty()) && run(Stop(), Zero(), result) == result &&
      run(code(e, Stop()), Zero(), Empty()) == result
  }.holds
}
