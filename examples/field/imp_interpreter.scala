// An interpreter of a small imperative language, with fuel: more fuel gives the same result.
// Benjamin C. Pierce and others, "Software Foundations", 2010, the chapters Imp and ImpCEvalFun.
import stainless.lang._

object ImpInterpreter {
  sealed abstract class Nat
  case class Zero() extends Nat
  case class Succ(n: Nat) extends Nat

  sealed abstract class Aexp
  case class Num(n: Int) extends Aexp
  case class Id(name: Int) extends Aexp
  case class Plus(left: Aexp, right: Aexp) extends Aexp
  case class Minus(left: Aexp, right: Aexp) extends Aexp

  sealed abstract class Bexp
  case class BTrue() extends Bexp
  case class Eq(left: Aexp, right: Aexp) extends Bexp
  case class Le(left: Aexp, right: Aexp) extends Bexp
  case class Not(b: Bexp) extends Bexp

  sealed abstract class Com
  case class Skip() extends Com
  case class Assign(name: Int, e: Aexp) extends Com
  case class Seq(first: Com, second: Com) extends Com
  case class If(cond: Bexp, thenC: Com, elseC: Com) extends Com
  case class While(cond: Bexp, body: Com) extends Com

  sealed abstract class State
  case class Bind(name: Int, value: Int, rest: State) extends State
  case class Zeros() extends State

  sealed abstract class OptState
  case class Some(s: State) extends OptState
  case class None() extends OptState

  def lookup(s: State, name: Int): Int = {
    decreases(s)
    s match {
      case Zeros() => 0
      case Bind(x, v, rest) => if (x == name) v else lookup(rest, name)
    }
  }

  def aeval(a: Aexp, s: State): Int = {
    decreases(a)
    a match {
      case Num(n) => n
      case Id(x) => lookup(s, x)
      case Plus(l, r) => aeval(l, s) + aeval(r, s)
      case Minus(l, r) => aeval(l, s) - aeval(r, s)
    }
  }

  def beval(b: Bexp, s: State): Boolean = {
    decreases(b)
    b match {
      case BTrue() => true
      case Eq(l, r) => aeval(l, s) == aeval(r, s)
      case Le(l, r) => aeval(l, s) <= aeval(r, s)
      case Not(c) => !beval(c, s)
    }
  }

  def ceval(c: Com, s: State, fuel: Nat): OptState = {
    decreases(fuel)
    fuel match {
      case Zero() => None()
      case Succ(n) => c match {
        case Skip() => Some(s)
        case Assign(x, e) => Some(Bind(x, aeval(e, s), s))
        case Seq(a, b) => ceval(a, s, n) match {
          case Some(t) => ceval(b, t, n)
          case None() => None()
        }
        case If(cond, a, b) => if (beval(cond, s)) ceval(a, s, n) else ceval(b, s, n)
        case While(cond, body) =>
          if (beval(cond, s)) {
            ceval(body, s, n) match {
              case Some(t) => ceval(c, t, n)
              case None() => None()
            }
          } else Some(s)
      }
    }
  }

  def moreFuel(c: Com, s: State, fuel: Nat): Boolean = {
    require(ceval(c, s, fuel) != None())
    decreases(fuel)
    val part = fuel match {
      case Zero() => true
      case Succ(n) => c match {
        case Seq(a, b) => moreFuel(a, s, n) && (ceval(a, s, n) match {
          case Some(t) => moreFuel(b, t, n)
          case None() => true
        })
        case If(cond, a, b) => if (beval(cond, s)) moreFuel(a, s, n) else moreFuel(b, s, n)
        case While(cond, body) =>
          !beval(cond, s) || (moreFuel(body, s, n) && (ceval(body, s, n) match {
            case Some(t) => moreFuel(c, t, n)
            case None() => true
          }))
        case _ => true
      }
    }
    part && ceval(c, s, Succ(fuel)) == ceval(c, s, fuel)
  }.holds

  // a loop ends where its condition is false
  def loopEnds(cond: Bexp, body: Com, s: State, fuel: Nat): Boolean = {
    decreases(fuel)
    val part = fuel match {
      case Zero() => true
      case Succ(n) => !beval(cond, s) || (ceval(body, s, n) match {
        case Some(t) => loopEnds(cond, body, t, n)
        case None() => true
      })
    }
    part && (ceval(While(cond, body), s, fuel) match {
      case Some(t) => !beval(cond, t)
      case None() => true
    })
  }.holds

  def skipLeft(c: Com, s: State, fuel: Nat): Boolean = {
    require(fuel != Zero())
    ceval(Seq(Skip(), c), s, Succ(fuel)) == ceval(c, s, fuel)
  }.holds
}
