// Proved: a list that is sorted by insertion is in order.
// pureproof examples/proofs/sorted.scala
// 3 valid, 0 invalid, 0 open, 0 depending
import stainless.lang._

object Sorted {
  sealed abstract class List[A]
  case class Cons[A](head: A, tail: List[A]) extends List[A]
  case class Nil[A]() extends List[A]

  def isSorted(l: List[Int]): Boolean = {
    decreases(l)
    l match {
      case Cons(a, t) => t match {
        case Cons(b, _) => a <= b && isSorted(t)
        case Nil() => true
      }
      case Nil() => true
    }
  }

  // Puts x in its place.
  def insert(x: Int, l: List[Int]): List[Int] = {
    require(isSorted(l))
    decreases(l)
    l match {
      case Nil() => Cons(x, Nil[Int]())
      case Cons(h, t) => if (x <= h) Cons(x, l) else Cons(h, insert(x, t))
    }
  } ensuring (res => isSorted(res))

  def sort(l: List[Int]): List[Int] = {
    decreases(l)
    l match {
      case Nil() => Nil[Int]()
      case Cons(h, t) => insert(h, sort(t))
    }
  } ensuring (res => isSorted(res))
}
