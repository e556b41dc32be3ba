// Constant folding of arithmetic and of Boolean expressions.
// Tobias Nipkow and Gerwin Klein, "Concrete Semantics", 2014, chapter 3 (asimp, bsimp).
import stainless.lang._

object ConstantFolding {
  sealed abstract class Aexp
  case class N(n: Int) extends Aexp
  case class V(name: Int) extends Aexp
  case class Plus(left: Aexp, right: Aexp) extends Aexp
  case class Times(left: Aexp, right: Aexp) extends Aexp

  sealed abstract class Bexp
  case class Bc(b: Boolean) extends Bexp
  case class Not(b: Bexp) extends Bexp
  case class And(left: Bexp, right: Bexp) extends Bexp
  case class Less(left: Aexp, right: Aexp) extends Bexp

  sealed abstract class State
  case class Bind(name: Int, value: Int, rest: State) extends State
  case class Zeros() extends State

  def lookup(s: State, name: Int): Int = {
    decreases(s)
    s match {
      case Zeros() => 0
      case Bind(x, v, rest) => if (x == name) v else lookup(rest, name)
    }
  }

  def aval(a: Aexp, s: State): Int = {
    decreases(a)
    a match {
      case N(n) => n
      case V(x) => lookup(s, x)
      case Plus(l, r) => aval(l, s) + aval(r, s)
      case Times(l, r) => aval(l, s) * aval(r, s)
    }
  }

  def bval(b: Bexp, s: State): Boolean = {
    decreases(b)
    b match {
      case Bc(c) => c
      case Not(c) => !bval(c, s)
      case And(l, r) => bval(l, s) && bval(r, s)
      case Less(l, r) => aval(l, s) < aval(r, s)
    }
  }

  def plus(a: Aexp, b: Aexp): Aexp = a match {
    case N(i) => b match {
      case N(j) => N(i + j)
      case _ => if (i == 0) b else Plus(a, b)
    }
    case _ => if (b == N(0)) a else Plus(a, b)
  }

  def times(a: Aexp, b: Aexp): Aexp = a match {
    case N(0) => N(0)
    case N(1) => b
    case N(i) => b match {
      case N(j) => N(i * j)
      case _ => Times(a, b)
    }
    case _ => b match {
      case N(0) => N(0)
      case N(1) => a
      case _ => Times(a, b)
    }
  }

  def asimp(a: Aexp): Aexp = {
    decreases(a)
    a match {
      case Plus(l, r) => plus(asimp(l), asimp(r))
      case Times(l, r) => times(asimp(l), asimp(r))
      case _ => a
    }
  }

  def not(b: Bexp): Bexp = b match {
    case Bc(true) => Bc(false)
    case Bc(false) => Bc(true)
    case _ => Not(b)
  }

  def and(a: Bexp, b: Bexp): Bexp = a match {
    case Bc(true) => b
    case Bc(false) => Bc(false)
    case _ => b match {
      case Bc(true) => a
      case Bc(false) => Bc(false)
      case _ => And(a, b)
    }
  }

  def less(a: Aexp, b: Aexp): Bexp = a match {
    case N(i) => b match {
      case N(j) => Bc(i < j)
      case _ => Less(a, b)
    }
    case _ => Less(a, b)
  }

  def bsimp(b: Bexp): Bexp = {
    decreases(b)
    b match {
      case Bc(c) => Bc(c)
      case Not(c) => not(bsimp(c))
      case And(l, r) => and(bsimp(l), bsimp(r))
      case Less(l, r) => less(asimp(l), asimp(r))
    }
  }

  def avalPlus(a: Aexp, b: Aexp, s: State): Boolean = {
    aval(plus(a, b), s) == aval(a, s) + aval(b, s)
  }.holds

  def avalTimes(a: Aexp, b: Aexp, s: State): Boolean = {
    aval(times(a, b), s) == aval(a, s) * aval(b, s)
  }.holds

  def avalAsimp(a: Aexp, s: State): Boolean = {
    decreases(a)
    a match {
      case Plus(l, r) =>
        avalAsimp(l, s) && avalAsimp(r, s) && avalPlus(asimp(l), asimp(r), s) && aval(asimp(a), s) == aval(a, s)
      case Times(l, r) =>
        avalAsimp(l, s) && avalAsimp(r, s) && avalTimes(asimp(l), asimp(r), s) && aval(asimp(a), s) == aval(a, s)
      case _ => aval(asimp(a), s) == aval(a, s)
    }
  }.holds

  def bvalBsimp(b: Bexp, s: State): Boolean = {
    decreases(b)
    val part = b match {
      case Bc(_) => true
      case Not(c) => bvalBsimp(c, s)
      case And(l, r) => bvalBsimp(l, s) && bvalBsimp(r, s)
      case Less(l, r) => avalAsimp(l, s) && avalAsimp(r, s)
    }
    part && bval(bsimp(b), s) == bval(b, s)
  }.holds
}
