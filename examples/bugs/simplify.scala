// Bug: `0 * e` is simplified to `e`, as `0 + e` is.
// pureproof examples/bugs/simplify.scala
// keepsValue: invalid, postcondition at 1:32:5, ..
object Terms {
  sealed trait Term
  case class Number(n: Int) extends Term
  case class Plus(a: Term, b: Term) extends Term
  case class Negated(a: Term) extends Term
  case class Times(n: Int, a: Term) extends Term

  def value(t: Term): Int = {
    decreases(t)
    t match {
      case Number(n) => n
      case Plus(a, b) => value(a) + value(b)
      case Negated(a) => -value(a)
      case Times(n, a) => if (n == 0) 0 else if (n == 1) value(a) else n * value(a)
    }
  }

  def simplify(t: Term): Term = t match {
    case Plus(Number(0), b) => b
    case Plus(a, Number(0)) => a
    case Negated(Negated(a)) => a
    case Times(1, a) => a
    case Times(0, a) => a
    case _ => t
  }

  def keepsValue(t: Term): Boolean = {
    value(simplify(t)) == value(t)
  }.holds
}
