// All steps are written out and it is valid with --gates 4000000, but open without: there are four calls of itself,
// and folded and value are opened at each place where the claim and the lemmas name them. Handing on the parts, so
// that lemmas call folded, is enough. Missing: as in jumps_size.scala.
import stainless.lang._

object Variables {
  sealed abstract class Expr
  case class Number(n: Int) extends Expr
  case class Variable(name: Int) extends Expr
  case class Sum(left: Expr, right: Expr) extends Expr
  case class Let(name: Int, bound: Expr, body: Expr) extends Expr

  // Names and what they stand for; an entry hides those behind it.
  sealed abstract class Env
  case class Bind(name: Int, value: Int, rest: Env) extends Env
  case class Empty() extends Env

  sealed abstract class Found
  case class Known(n: Int) extends Found
  case class Unknown() extends Found

  def find(env: Env, x: Int): Found = {
    decreases(env)
    env match {
      case Bind(y, n, rest) => if (x == y) Known(n) else find(rest, x)
      case Empty() => Unknown()
    }
  }

  // A name that is bound to nothing stands for 0.
  def lookup(env: Env, x: Int): Int = {
    decreases(env)
    env match {
      case Bind(y, n, rest) => if (x == y) n else lookup(rest, x)
      case Empty() => 0
    }
  }

  def value(e: Expr, env: Env): Int = {
    decreases(e)
    e match {
      case Number(n) => n
      case Variable(x) => lookup(env, x)
      case Sum(a, b) => value(a, env) + value(b, env)
      case Let(x, a, b) => value(b, Bind(x, value(a, env), env))
    }
  }

  // The entries of other names.
  def without(known: Env, x: Int): Env = {
    decreases(known)
    known match {
      case Bind(y, n, rest) => if (x == y) without(rest, x) else Bind(y, n, without(rest, x))
      case Empty() => Empty()
    }
  }

  // The sum of two folded expressions.
  def sum(a: Expr, b: Expr): Expr = a match {
    case Number(m) => b match {
      case Number(n) => Number(m + n)
      case _ => if (m == 0) b else Sum(a, b)
    }
    case _ => if (b == Number(0)) a else Sum(a, b)
  }

  // What is known of the value of x, which is bound to a folded expression.
  def bound(known: Env, x: Int, e: Expr): Env = e match {
    case Number(n) => Bind(x, n, without(known, x))
    case _ => without(known, x)
  }

  def folded(e: Expr, known: Env): Expr = {
    decreases(e)
    e match {
      case Variable(x) => find(known, x) match {
        case Known(n) => Number(n)
        case Unknown() => e
      }
      case Sum(a, b) => sum(folded(a, known), folded(b, known))
      case Let(x, a, b) =>
        val c = folded(a, known)
        Let(x, c, folded(b, bound(known, x, c)))
      case _ => e
    }
  }

  // What is known is so.
  def isTrue(known: Env, env: Env): Boolean = {
    decreases(known)
    known match {
      case Bind(x, n, rest) => lookup(env, x) == n && isTrue(rest, env)
      case Empty() => true
    }
  }

  def knownIsTrue(known: Env, env: Env, x: Int): Boolean = {
    require(isTrue(known, env))
    decreases(known)
    val parts = known match {
      case Bind(_, _, rest) => knownIsTrue(rest, env, x)
      case Empty() => true
    }
    parts && (find(known, x) match {
      case Known(n) => n == lookup(env, x)
      case Unknown() => true
    })
  }.holds

  // What is known of other names is so where x is bound.
  def othersAreTrue(known: Env, env: Env, x: Int, n: Int): Boolean = {
    require(isTrue(known, env))
    decreases(known)
    val parts = known match {
      case Bind(_, _, rest) => othersAreTrue(rest, env, x, n)
      case Empty() => true
    }
    parts && isTrue(without(known, x), Bind(x, n, env))
  }.holds

  def boundIsTrue(known: Env, env: Env, x: Int, e: Expr): Boolean = {
    require(isTrue(known, env))
    val n = value(e, env)
    val inner = Bind(x, n, env)
    othersAreTrue(known, env, x, n) && lookup(inner, x) == n && isTrue(bound(known, x, e), inner)
  }.holds

  def sumKeepsValue(a: Expr, b: Expr, env: Env): Boolean = {
    value(sum(a, b), env) == value(a, env) + value(b, env)
  }.holds

  def keepsValue(e: Expr, known: Env, env: Env): Boolean = {
    require(isTrue(known, env))
    decreases(e)
    val parts = e match {
      case Variable(x) => knownIsTrue(known, env, x)
      case Sum(a, b) => keepsValue(a, known, env) && keepsValue(b, known, env) &&
        sumKeepsValue(folded(a, known), folded(b, known), env)
      case Let(x, a, b) =>
        val c = folded(a, known)
        keepsValue(a, known, env) && boundIsTrue(known, env, x, c) &&
          keepsValue(b, bound(known, x, c), Bind(x, value(a, env), env))
      case _ => true
    }
    parts && value(folded(e, known), env) == value(e, env)
  }.holds

  def isRight(e: Expr): Boolean = {
    isTrue(Empty(), Empty()) && keepsValue(e, Empty(), Empty()) &&
      value(folded(e, Empty()), Empty()) == value(e, Empty())
  }.holds
}
