// Typed arithmetic expressions: progress and preservation.
// Benjamin C. Pierce, "Types and Programming Languages", 2002, chapters 3 and 8; with a conjunction beside.
import stainless.lang._

object TypedArithmetic {
  sealed abstract class Term
  case class True() extends Term
  case class False() extends Term
  case class If(cond: Term, thenT: Term, elseT: Term) extends Term
  case class Zero() extends Term
  case class Succ(t: Term) extends Term
  case class Pred(t: Term) extends Term
  case class IsZero(t: Term) extends Term
  case class And(left: Term, right: Term) extends Term

  sealed abstract class Type
  case class Bool() extends Type
  case class Nat() extends Type

  sealed abstract class OptType
  case class SomeType(t: Type) extends OptType
  case class NoType() extends OptType

  sealed abstract class OptTerm
  case class SomeTerm(t: Term) extends OptTerm
  case class NoTerm() extends OptTerm

  def isNumeric(t: Term): Boolean = {
    decreases(t)
    t match {
      case Zero() => true
      case Succ(u) => isNumeric(u)
      case _ => false
    }
  }

  def isValue(t: Term): Boolean = t match {
    case True() => true
    case False() => true
    case _ => isNumeric(t)
  }

  def typeOf(t: Term): OptType = {
    decreases(t)
    t match {
      case True() => SomeType(Bool())
      case False() => SomeType(Bool())
      case If(c, a, b) =>
        if (typeOf(c) == SomeType(Bool()) && typeOf(a) == typeOf(b)) typeOf(a) else NoType()
      case Zero() => SomeType(Nat())
      case Succ(u) => if (typeOf(u) == SomeType(Nat())) SomeType(Nat()) else NoType()
      case Pred(u) => if (typeOf(u) == SomeType(Nat())) SomeType(Nat()) else NoType()
      case IsZero(u) => if (typeOf(u) == SomeType(Nat())) SomeType(Bool()) else NoType()
      case And(a, b) =>
        if (typeOf(a) == SomeType(Bool()) && typeOf(b) == SomeType(Bool())) SomeType(Bool()) else NoType()
    }
  }

  def step(t: Term): OptTerm = {
    decreases(t)
    t match {
      case If(True(), a, _) => SomeTerm(a)
      case If(False(), _, b) => SomeTerm(b)
      case If(c, a, b) => step(c) match {
        case SomeTerm(d) => SomeTerm(If(d, a, b))
        case NoTerm() => NoTerm()
      }
      case Succ(u) => step(u) match {
        case SomeTerm(v) => SomeTerm(Succ(v))
        case NoTerm() => NoTerm()
      }
      case Pred(Zero()) => SomeTerm(Zero())
      case Pred(Succ(u)) if isNumeric(u) => SomeTerm(u)
      case Pred(u) => step(u) match {
        case SomeTerm(v) => SomeTerm(Pred(v))
        case NoTerm() => NoTerm()
      }
      case IsZero(Zero()) => SomeTerm(True())
      case IsZero(Succ(u)) if isNumeric(u) => SomeTerm(False())
      case IsZero(u) => step(u) match {
        case SomeTerm(v) => SomeTerm(IsZero(v))
        case NoTerm() => NoTerm()
      }
      case And(True(), b) => SomeTerm(b)
      case And(False(), _) => SomeTerm(False())
      case And(a, b) => step(a) match {
        case SomeTerm(c) => SomeTerm(And(c, b))
        case NoTerm() => NoTerm()
      }
      case _ => NoTerm()
    }
  }

  // a well typed term is a value, or there is a step
  def progress(t: Term): Boolean = {
    require(typeOf(t) != NoType())
    decreases(t)
    val part = t match {
      case If(c, _, _) => progress(c)
      case Succ(u) => progress(u)
      case Pred(u) => progress(u)
      case IsZero(u) => progress(u)
      case And(a, _) => progress(a)
      case _ => true
    }
    part && (isValue(t) || step(t) != NoTerm())
  }.holds

  // a step keeps the type
  def preservation(t: Term): Boolean = {
    require(typeOf(t) != NoType())
    decreases(t)
    val part = t match {
      case If(c, _, _) => preservation(c)
      case Succ(u) => preservation(u)
      case Pred(u) => preservation(u)
      case IsZero(u) => preservation(u)
      case And(a, _) => preservation(a)
      case _ => true
    }
    part && (step(t) match {
      case SomeTerm(u) => typeOf(u) == typeOf(t)
      case NoTerm() => true
    })
  }.holds

  def numericHasNoStep(t: Term): Boolean = {
    require(isNumeric(t))
    decreases(t)
    t match {
      case Succ(u) => numericHasNoStep(u) && step(t) == NoTerm()
      case _ => step(t) == NoTerm()
    }
  }.holds

  def valueHasNoStep(t: Term): Boolean = {
    require(isValue(t))
    (!isNumeric(t) || numericHasNoStep(t)) && step(t) == NoTerm()
  }.holds
}
