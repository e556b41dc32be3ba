// Proved: the code that is made of a term leaves the term's value on the stack.
// pureproof examples/proofs/machine.scala
// 5 valid, 0 invalid, 0 open, 0 depending
import stainless.lang._

object Machines {
  sealed trait Term
  case class Number(n: Int) extends Term
  case class Flipped(t: Term) extends Term

  sealed trait Code
  case class Push(n: Int, rest: Code) extends Code
  case class Flip(rest: Code) extends Code
  case class Stop() extends Code

  sealed trait Stack
  case class Top(n: Int, below: Stack) extends Stack
  case class Empty() extends Stack

  def value(t: Term): Int = {
    decreases(t)
    t match {
      case Number(n) => n
      case Flipped(u) => ~value(u)
    }
  }

  // The code of a term, before the code that goes on.
  def code(t: Term, rest: Code): Code = {
    decreases(t)
    t match {
      case Number(n) => Push(n, rest)
      case Flipped(u) => code(u, Flip(rest))
    }
  }

  def run(c: Code, s: Stack): Stack = {
    decreases(c)
    c match {
      case Push(n, rest) => run(rest, Top(n, s))
      case Flip(rest) => s match {
        case Top(n, below) => run(rest, Top(~n, below))
        case Empty() => s
      }
      case Stop() => s
    }
  }

  def runCode(t: Term, rest: Code, s: Stack): Boolean = {
    decreases(t)
    val same = run(code(t, rest), s) == run(rest, Top(value(t), s))
    t match {
      case Number(_) => same
      case Flipped(u) =>
        runCode(u, Flip(rest), s) && run(Flip(rest), Top(value(u), s)) == run(rest, Top(~value(u), s)) && same
    }
  }.holds

  def isRight(t: Term): Boolean = {
    val result = Top(value(t), Empty())
    runCode(t, Stop(), Empty()) && run(Stop(), result) == result && run(code(t, Stop()), Empty()) == result
  }.holds
}
