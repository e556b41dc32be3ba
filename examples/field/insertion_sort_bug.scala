// With a bug, at `// bug`: `sortedIns` doesn't require that the list is sorted
// Insertion sort with the least element of a list.
// The form is that of the testcase InsertionSort of the Leon verifier (Suter, Köksal, Kuncak, "Satisfiability modulo
// recursive programs", 2011); the content, there a set, is a count of each element.
import leon.lang._

object InsertionSort {
  sealed abstract class List
  case class Cons(head: Int, tail: List) extends List
  case class Nil() extends List

  sealed abstract class OptInt
  case class Some(value: Int) extends OptInt
  case class None() extends OptInt

  def size(l: List): Int = {
    decreases(l)
    l match {
      case Nil() => 0
      case Cons(_, xs) => 1 + size(xs)
    }
  }

  def count(l: List, e: Int): Int = {
    decreases(l)
    l match {
      case Nil() => 0
      case Cons(x, xs) => if (x == e) 1 + count(xs, e) else count(xs, e)
    }
  }

  def contains(l: List, e: Int): Boolean = {
    decreases(l)
    l match {
      case Nil() => false
      case Cons(x, xs) => x == e || contains(xs, e)
    }
  }

  def min(l: List): OptInt = {
    decreases(l)
    l match {
      case Nil() => None()
      case Cons(x, xs) => min(xs) match {
        case None() => Some(x)
        case Some(x2) => if (x < x2) Some(x) else Some(x2)
      }
    }
  }

  def isSorted(l: List): Boolean = {
    decreases(l)
    l match {
      case Nil() => true
      case Cons(_, Nil()) => true
      case Cons(x, Cons(y, ys)) => x <= y && isSorted(Cons(y, ys))
    }
  }

  def minProp0(l: List): Boolean = {
    l match {
      case Nil() => true
      case c @ Cons(x, _) => min(c) match {
        case None() => false
        case Some(m) => x >= m
      }
    }
  }.holds

  def minProp1(l: List): Boolean = {
    require(isSorted(l))
    decreases(l)
    l match {
      case Nil() => true
      case c @ Cons(x, xs) => minProp1(xs) && (min(c) match {
        case None() => false
        case Some(m) => x == m
      })
    }
  }.holds

  def minProp2(l: List, i: Int): Boolean = {
    require(contains(l, i))
    decreases(l)
    l match {
      case Nil() => false
      case c @ Cons(x, xs) => (x == i || minProp2(xs, i)) && (min(c) match {
        case None() => false
        case Some(m) => i >= m
      })
    }
  }.holds

  def sortedIns(e: Int, l: List): List = {
    // bug: `sortedIns` doesn't require that the list is sorted
    decreases(l)
    l match {
      case Nil() => Cons(e, Nil())
      case Cons(x, xs) => if (x <= e) Cons(x, sortedIns(e, xs)) else Cons(e, l)
    }
  } ensuring (res => isSorted(res) && size(res) == size(l) + 1)

  def sort(l: List): List = {
    decreases(l)
    l match {
      case Nil() => Nil()
      case Cons(x, xs) => sortedIns(x, sort(xs))
    }
  } ensuring (res => isSorted(res) && size(res) == size(l))

  def sortedInsCounts(e: Int, l: List, y: Int): Boolean = {
    require(isSorted(l))
    decreases(l)
    val claim = count(sortedIns(e, l), y) == count(l, y) + (if (e == y) 1 else 0)
    l match {
      case Nil() => claim
      case Cons(_, xs) => sortedInsCounts(e, xs, y) && claim
    }
  }.holds

  def sortCounts(l: List, y: Int): Boolean = {
    decreases(l)
    l match {
      case Nil() => count(sort(l), y) == count(l, y)
      case Cons(x, xs) => sortCounts(xs, y) && sortedInsCounts(x, sort(xs), y) && count(sort(l), y) == count(l, y)
    }
  }.holds
}
