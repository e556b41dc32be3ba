// Proved: reversing a list twice gives the list.
// pureproof examples/proofs/reverse.scala
// 6 valid, 0 invalid, 0 open, 0 depending
import stainless.lang._

object Reverse {
  sealed abstract class List[A]
  case class Cons[A](head: A, tail: List[A]) extends List[A]
  case class Nil[A]() extends List[A]

  // The list with x at its end.
  def snoc[A](l: List[A], x: A): List[A] = {
    decreases(l)
    l match {
      case Cons(h, t) => Cons(h, snoc(t, x))
      case Nil() => Cons(x, Nil[A]())
    }
  }

  def reverse[A](l: List[A]): List[A] = {
    decreases(l)
    l match {
      case Cons(h, t) => snoc(reverse(t), h)
      case Nil() => l
    }
  }

  // What stands in front stays in front.
  def snocBehind[A](x: A, l: List[A], y: A): Boolean = {
    snoc(Cons(x, l), y) == Cons(x, snoc(l, y))
  }.holds

  def oneReversed[A](x: A): Boolean = {
    reverse(Cons(x, Nil[A]())) == Cons(x, Nil[A]())
  }.holds

  // What stands at the end comes first.
  def snocReversed[A](l: List[A], x: A): Boolean = {
    decreases(l)
    val rest = l match {
      case Cons(h, t) => snocReversed(t, x) && snocBehind(x, reverse(t), h)
      case Nil() => oneReversed(x)
    }
    rest && reverse(snoc(l, x)) == Cons(x, reverse(l))
  }.holds

  def reversedTwice[A](l: List[A]): Boolean = {
    decreases(l)
    val rest = l match {
      case Cons(h, t) => reversedTwice(t) && snocReversed(reverse(t), h)
      case Nil() => true
    }
    rest && reverse(reverse(l)) == l
  }.holds
}
