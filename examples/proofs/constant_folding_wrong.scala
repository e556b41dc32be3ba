// Not proved: 0 and an expression make 0.
// pureproof examples/proofs/constant_folding_wrong.scala
// 3 valid, 1 invalid, 0 open, 1 depending
import stainless.lang._

object ConstantFolding {
  sealed abstract class Expr
  case class Number(value: Int) extends Expr
  case class Variable() extends Expr
  case class Sum(left: Expr, right: Expr) extends Expr

  def value(e: Expr, x: Int): Int = {
    decreases(e)
    e match {
      case Number(n) => n
      case Variable() => x
      case Sum(a, b) => value(a, x) + value(b, x)
    }
  }

  // The sum of two folded expressions.
  def sum(a: Expr, b: Expr): Expr = a match {
    case Number(0) => a
    case Number(m) => b match {
      case Number(n) => Number(m + n)
      case _ => Sum(a, b)
    }
    case _ => b match {
      case Number(0) => a
      case _ => Sum(a, b)
    }
  }

  def folded(e: Expr): Expr = {
    decreases(e)
    e match {
      case Sum(a, b) => sum(folded(a), folded(b))
      case _ => e
    }
  }

  def sumKeepsValue(a: Expr, b: Expr, x: Int): Boolean = {
    value(sum(a, b), x) == value(a, x) + value(b, x)
  }.holds

  def keepsValue(e: Expr, x: Int): Boolean = {
    decreases(e)
    val parts = e match {
      case Sum(a, b) => keepsValue(a, x) && keepsValue(b, x) && sumKeepsValue(folded(a), folded(b), x)
      case _ => true
    }
    parts && value(folded(e), x) == value(e, x)
  }.holds
}
