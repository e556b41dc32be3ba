// Proved: appending is associative, and the empty list is its unit.
// pureproof examples/proofs/append.scala
// 3 valid, 0 invalid, 0 open, 0 depending
import stainless.lang._

object Append {
  sealed abstract class List[A]
  case class Cons[A](head: A, tail: List[A]) extends List[A]
  case class Nil[A]() extends List[A]

  def append[A](a: List[A], b: List[A]): List[A] = {
    decreases(a)
    a match {
      case Cons(h, t) => Cons(h, append(t, b))
      case Nil() => b
    }
  }

  def isAssociative[A](a: List[A], b: List[A], c: List[A]): Boolean = {
    decreases(a)
    val rest = a match {
      case Cons(_, t) => isAssociative(t, b, c)
      case Nil() => true
    }
    rest && append(append(a, b), c) == append(a, append(b, c))
  }.holds

  def hasUnit[A](a: List[A]): Boolean = {
    decreases(a)
    val rest = a match {
      case Cons(_, t) => hasUnit(t)
      case Nil() => true
    }
    rest && append(a, Nil[A]()) == a && append(Nil[A](), a) == a
  }.holds
}
