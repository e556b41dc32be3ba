// Not proved: an element that is larger than the head is put before it.
// pureproof examples/proofs/insertion_sort_wrong.scala
// 2 valid, 1 invalid, 0 open, 3 depending
import stainless.lang._

object InsertionSort {
  sealed abstract class List
  case class Cons(head: Int, tail: List) extends List
  case class Nil() extends List

  def isSorted(l: List): Boolean = {
    decreases(l)
    l match {
      case Cons(a, t) => t match {
        case Cons(b, _) => a <= b && isSorted(t)
        case Nil() => true
      }
      case Nil() => true
    }
  }

  // How often x stands in the list.
  def count(x: Int, l: List): Int = {
    decreases(l)
    l match {
      case Cons(h, t) => if (h == x) 1 + count(x, t) else count(x, t)
      case Nil() => 0
    }
  }

  // Puts x in its place.
  def insert(x: Int, l: List): List = {
    require(isSorted(l))
    decreases(l)
    l match {
      case Cons(h, t) => if (x >= h) Cons(x, l) else Cons(h, insert(x, t))
      case Nil() => Cons(x, Nil())
    }
  } ensuring (res => isSorted(res))

  def sort(l: List): List = {
    decreases(l)
    l match {
      case Cons(h, t) => insert(h, sort(t))
      case Nil() => Nil()
    }
  } ensuring (res => isSorted(res))

  // After x came in, it stands there once more, and any other number as often as before.
  def insertCounts(x: Int, l: List, y: Int): Boolean = {
    require(isSorted(l))
    decreases(l)
    val rest = l match {
      case Cons(_, t) => insertCounts(x, t, y)
      case Nil() => true
    }
    rest && count(y, insert(x, l)) == count(y, l) + (if (x == y) 1 else 0)
  }.holds

  def sortCounts(l: List, y: Int): Boolean = {
    decreases(l)
    val rest = l match {
      case Cons(h, t) => sortCounts(t, y) && insertCounts(h, sort(t), y)
      case Nil() => true
    }
    rest && count(y, sort(l)) == count(y, l)
  }.holds
}
