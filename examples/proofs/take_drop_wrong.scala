// Not proved: one element too many is taken.
// pureproof examples/proofs/take_drop_wrong.scala
// 3 valid, 1 invalid, 0 open, 0 depending
import stainless.lang._

object TakeDrop {
  sealed abstract class List[A]
  case class Cons[A](head: A, tail: List[A]) extends List[A]
  case class Nil[A]() extends List[A]

  def append[A](a: List[A], b: List[A]): List[A] = {
    decreases(a)
    a match {
      case Cons(h, t) => Cons(h, append(t, b))
      case Nil() => b
    }
  }

  def take[A](n: Int, l: List[A]): List[A] = {
    decreases(l)
    l match {
      case Cons(h, t) if n >= 0 => Cons(h, take(n - 1, t))
      case _ => Nil[A]()
    }
  }

  def drop[A](n: Int, l: List[A]): List[A] = {
    decreases(l)
    l match {
      case Cons(_, t) if n > 0 => drop(n - 1, t)
      case _ => l
    }
  }

  def together[A](n: Int, l: List[A]): Boolean = {
    decreases(l)
    val rest = l match {
      case Cons(_, t) => together(n - 1, t)
      case Nil() => true
    }
    rest && append(take(n, l), drop(n, l)) == l
  }.holds
}
