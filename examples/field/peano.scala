// Natural numbers: addition and multiplication are commutative, associative and distribute.
// Benjamin C. Pierce and others, "Software Foundations", 2010, the chapter Induction; Giuseppe Peano, "Arithmetices
// principia", 1889.
import stainless.lang._

object Peano {
  sealed abstract class Nat
  case class Z() extends Nat
  case class S(n: Nat) extends Nat

  def plus(a: Nat, b: Nat): Nat = {
    decreases(a)
    a match {
      case Z() => b
      case S(n) => S(plus(n, b))
    }
  }

  def times(a: Nat, b: Nat): Nat = {
    decreases(a)
    a match {
      case Z() => Z()
      case S(n) => plus(b, times(n, b))
    }
  }

  def leq(a: Nat, b: Nat): Boolean = {
    decreases(a)
    a match {
      case Z() => true
      case S(n) => b match {
        case Z() => false
        case S(m) => leq(n, m)
      }
    }
  }

  def plusZero(a: Nat): Boolean = {
    decreases(a)
    a match {
      case Z() => plus(a, Z()) == a
      case S(n) => plusZero(n) && plus(a, Z()) == a
    }
  }.holds

  def plusSucc(a: Nat, b: Nat): Boolean = {
    decreases(a)
    a match {
      case Z() => plus(a, S(b)) == S(plus(a, b))
      case S(n) => plusSucc(n, b) && plus(a, S(b)) == S(plus(a, b))
    }
  }.holds

  def plusCommutes(a: Nat, b: Nat): Boolean = {
    decreases(a)
    a match {
      case Z() => plusZero(b) && plus(a, b) == plus(b, a)
      case S(n) => plusCommutes(n, b) && plusSucc(b, n) && plus(a, b) == plus(b, a)
    }
  }.holds

  def plusAssoc(a: Nat, b: Nat, c: Nat): Boolean = {
    decreases(a)
    val part = a match {
      case Z() => true
      case S(n) => plusAssoc(n, b, c)
    }
    part && plus(plus(a, b), c) == plus(a, plus(b, c))
  }.holds

  // b + (n + x) is n + (b + x)
  def plusSwap(a: Nat, b: Nat, c: Nat): Boolean = {
    plusAssoc(a, b, c) && plusAssoc(b, a, c) && plusCommutes(a, b) &&
      plus(a, plus(b, c)) == plus(b, plus(a, c))
  }.holds

  def timesZero(a: Nat): Boolean = {
    decreases(a)
    a match {
      case Z() => times(a, Z()) == Z()
      case S(n) => timesZero(n) && times(a, Z()) == Z()
    }
  }.holds

  def timesSucc(a: Nat, b: Nat): Boolean = {
    decreases(a)
    val part = a match {
      case Z() => true
      case S(n) => timesSucc(n, b) && plusSwap(b, n, times(n, b))
    }
    part && times(a, S(b)) == plus(a, times(a, b))
  }.holds

  def timesCommutes(a: Nat, b: Nat): Boolean = {
    decreases(a)
    val part = a match {
      case Z() => timesZero(b)
      case S(n) => timesCommutes(n, b) && timesSucc(b, n)
    }
    part && times(a, b) == times(b, a)
  }.holds

  def distributes(a: Nat, b: Nat, c: Nat): Boolean = {
    decreases(a)
    val part = a match {
      case Z() => true
      case S(n) => distributes(n, b, c) && plusAssoc(c, times(n, c), times(b, c))
    }
    part && times(plus(a, b), c) == plus(times(a, c), times(b, c))
  }.holds

  def timesAssoc(a: Nat, b: Nat, c: Nat): Boolean = {
    decreases(a)
    val part = a match {
      case Z() => true
      case S(n) => timesAssoc(n, b, c) && distributes(b, times(n, b), c)
    }
    part && times(times(a, b), c) == times(a, times(b, c))
  }.holds

  def leqTransitive(a: Nat, b: Nat, c: Nat): Boolean = {
    require(leq(a, b) && leq(b, c))
    decreases(a, b, c)
    val part = a match {
      case S(n) => b match {
        case S(m) => c match {
          case S(k) => leqTransitive(n, m, k)
          case Z() => false
        }
        case Z() => false
      }
      case Z() => true
    }
    part && leq(a, c)
  }.holds
}
