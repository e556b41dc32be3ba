// With a bug, at `// bug`: the operands come in the other order
// A compiler from arithmetic expressions to a stack machine.
// Adam Chlipala, "Certified Programming with Dependent Types", 2013, chapter 2; John McCarthy and James Painter,
// "Correctness of a compiler for arithmetic expressions", 1967.
import stainless.lang._

object ExpressionCompiler {
  sealed abstract class Binop
  case class Plus() extends Binop
  case class Minus() extends Binop

  sealed abstract class Exp
  case class Const(n: Int) extends Exp
  case class Bin(op: Binop, left: Exp, right: Exp) extends Exp

  sealed abstract class Instr
  case class IConst(n: Int) extends Instr
  case class IBinop(op: Binop) extends Instr

  sealed abstract class Prog
  case class Step(i: Instr, rest: Prog) extends Prog
  case class Done() extends Prog

  sealed abstract class Stack
  case class Push(n: Int, below: Stack) extends Stack
  case class Empty() extends Stack

  sealed abstract class Outcome
  case class Good(stack: Stack) extends Outcome
  case class Stuck() extends Outcome

  def binopDenote(op: Binop, a: Int, b: Int): Int = op match {
    case Plus() => a + b
    case Minus() => a - b
  }

  def expDenote(e: Exp): Int = {
    decreases(e)
    e match {
      case Const(n) => n
      case Bin(op, l, r) => binopDenote(op, expDenote(l), expDenote(r))
    }
  }

  def instrDenote(i: Instr, s: Stack): Outcome = i match {
    case IConst(n) => Good(Push(n, s))
    case IBinop(op) => s match {
      case Push(a, Push(b, t)) => Good(Push(binopDenote(op, a, b), t))
      case _ => Stuck()
    }
  }

  def progDenote(p: Prog, s: Stack): Outcome = {
    decreases(p)
    p match {
      case Done() => Good(s)
      case Step(i, rest) => instrDenote(i, s) match {
        case Good(t) => progDenote(rest, t)
        case Stuck() => Stuck()
      }
    }
  }

  def append(p: Prog, q: Prog): Prog = {
    decreases(p)
    p match {
      case Done() => q
      case Step(i, rest) => Step(i, append(rest, q))
    }
  }

  def compile(e: Exp): Prog = {
    decreases(e)
    e match {
      case Const(n) => Step(IConst(n), Done())
      // bug: the operands come in the other order
      case Bin(op, l, r) => append(compile(l), append(compile(r), Step(IBinop(op), Done())))
    }
  }

  def appendAssoc(a: Prog, b: Prog, c: Prog): Boolean = {
    decreases(a)
    val part = a match {
      case Done() => true
      case Step(_, rest) => appendAssoc(rest, b, c)
    }
    part && append(append(a, b), c) == append(a, append(b, c))
  }.holds

  def appendDone(a: Prog): Boolean = {
    decreases(a)
    a match {
      case Done() => append(a, Done()) == a
      case Step(_, rest) => appendDone(rest) && append(a, Done()) == a
    }
  }.holds

  // compiled code, and more behind it, on any stack
  def compileCorrectOn(e: Exp, p: Prog, s: Stack): Boolean = {
    decreases(e)
    val claim = progDenote(append(compile(e), p), s) == progDenote(p, Push(expDenote(e), s))
    e match {
      case Const(_) => claim
      case Bin(op, l, r) =>
        val last = Step(IBinop(op), Done())
        appendAssoc(compile(r), append(compile(l), last), p) && appendAssoc(compile(l), last, p) &&
          compileCorrectOn(r, append(compile(l), append(last, p)), s) &&
          compileCorrectOn(l, append(last, p), Push(expDenote(r), s)) && claim
    }
  }.holds

  def compileCorrect(e: Exp): Boolean = {
    compileCorrectOn(e, Done(), Empty()) && appendDone(compile(e)) &&
      progDenote(compile(e), Empty()) == Good(Push(expDenote(e), Empty()))
  }.holds

  // append runs one program and then the other
  def appendRuns(p: Prog, q: Prog, s: Stack): Boolean = {
    decreases(p)
    val both = progDenote(p, s) match {
      case Good(t) => progDenote(q, t)
      case Stuck() => Stuck()
    }
    p match {
      case Done() => progDenote(append(p, q), s) == both
      case Step(i, rest) => instrDenote(i, s) match {
        case Good(t) => appendRuns(rest, q, t) && progDenote(append(p, q), s) == both
        case Stuck() => progDenote(append(p, q), s) == both
      }
    }
  }.holds
}
