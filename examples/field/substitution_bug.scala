// With a bug, at `// bug`: nothing is put in on the right
// Evaluation under substitution: putting an expression in for a variable is to change the state.
// Tobias Nipkow and Gerwin Klein, "Concrete Semantics", 2014, exercise 3.3 (the substitution lemma), with `let`.
import stainless.lang._

object Substitution {
  sealed abstract class Exp
  case class N(n: Int) extends Exp
  case class V(name: Int) extends Exp
  case class Plus(left: Exp, right: Exp) extends Exp
  case class Neg(e: Exp) extends Exp

  sealed abstract class State
  case class Bind(name: Int, value: Int, rest: State) extends State
  case class Zeros() extends State

  def lookup(s: State, name: Int): Int = {
    decreases(s)
    s match {
      case Zeros() => 0
      case Bind(x, v, rest) => if (x == name) v else lookup(rest, name)
    }
  }

  def value(e: Exp, s: State): Int = {
    decreases(e)
    e match {
      case N(n) => n
      case V(x) => lookup(s, x)
      case Plus(l, r) => value(l, s) + value(r, s)
      case Neg(f) => -value(f, s)
    }
  }

  def subst(x: Int, a: Exp, e: Exp): Exp = {
    decreases(e)
    e match {
      case N(n) => N(n)
      case V(y) => if (x == y) a else e
      // bug: nothing is put in on the right
      case Plus(l, r) => Plus(subst(x, a, l), r)
      case Neg(f) => Neg(subst(x, a, f))
    }
  }

  def occurs(x: Int, e: Exp): Boolean = {
    decreases(e)
    e match {
      case N(_) => false
      case V(y) => x == y
      case Plus(l, r) => occurs(x, l) || occurs(x, r)
      case Neg(f) => occurs(x, f)
    }
  }

  def substitutionLemma(x: Int, a: Exp, e: Exp, s: State): Boolean = {
    decreases(e)
    val part = e match {
      case Plus(l, r) => substitutionLemma(x, a, l, s) && substitutionLemma(x, a, r, s)
      case Neg(f) => substitutionLemma(x, a, f, s)
      case _ => true
    }
    part && value(subst(x, a, e), s) == value(e, Bind(x, value(a, s), s))
  }.holds

  // equal expressions may be put in for each other
  def sameSubstitution(x: Int, a: Exp, b: Exp, e: Exp, s: State): Boolean = {
    require(value(a, s) == value(b, s))
    substitutionLemma(x, a, e, s) && substitutionLemma(x, b, e, s) &&
      value(subst(x, a, e), s) == value(subst(x, b, e), s)
  }.holds

  // what doesn't occur isn't replaced
  def substAbsent(x: Int, a: Exp, e: Exp): Boolean = {
    require(!occurs(x, e))
    decreases(e)
    e match {
      case N(_) => subst(x, a, e) == e
      case V(_) => subst(x, a, e) == e
      case Plus(l, r) => substAbsent(x, a, l) && substAbsent(x, a, r) && subst(x, a, e) == e
      case Neg(f) => substAbsent(x, a, f) && subst(x, a, e) == e
    }
  }.holds

  def substRemoves(x: Int, a: Exp, e: Exp): Boolean = {
    require(!occurs(x, a))
    decreases(e)
    val part = e match {
      case Plus(l, r) => substRemoves(x, a, l) && substRemoves(x, a, r)
      case Neg(f) => substRemoves(x, a, f)
      case _ => true
    }
    part && !occurs(x, subst(x, a, e))
  }.holds

  // the order of two substitutions
  def substTwice(x: Int, a: Exp, y: Int, b: Exp, e: Exp): Boolean = {
    require(x != y && !occurs(x, b))
    decreases(e)
    val part = e match {
      case V(z) => z != y || substAbsent(x, subst(y, b, a), b)
      case Plus(l, r) => substTwice(x, a, y, b, l) && substTwice(x, a, y, b, r)
      case Neg(f) => substTwice(x, a, y, b, f)
      case N(_) => true
    }
    part && subst(y, b, subst(x, a, e)) == subst(x, subst(y, b, a), subst(y, b, e))
  }.holds

  // variables that don't occur don't matter
  def coincidence(x: Int, v: Int, e: Exp, s: State): Boolean = {
    require(!occurs(x, e))
    decreases(e)
    val part = e match {
      case Plus(l, r) => coincidence(x, v, l, s) && coincidence(x, v, r, s)
      case Neg(f) => coincidence(x, v, f, s)
      case _ => true
    }
    part && value(e, Bind(x, v, s)) == value(e, s)
  }.holds
}
