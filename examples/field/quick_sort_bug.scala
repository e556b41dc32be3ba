// With a bug, at `// bug`: elements equal to the pivot are lost
// Quick sort on lists.
// C. A. R. Hoare, "Quicksort", 1962; the form is that of the testcase QuickSort of the Leon verifier (2011) and of
// Richard Bird, "Introduction to Functional Programming using Haskell", 1998.
import leon.lang._

object QuickSort {
  sealed abstract class List
  case class Cons(head: Int, tail: List) extends List
  case class Nil() extends List

  // up to 1000000
  def size(l: List): Int = {
    decreases(l)
    l match {
      case Nil() => 0
      case Cons(_, xs) =>
        val n = size(xs)
        if (n < 1000000) n + 1 else n
    }
  } ensuring (res => 0 <= res && res <= 1000000)

  def count(l: List, y: Int): Int = {
    decreases(l)
    l match {
      case Nil() => 0
      case Cons(x, xs) => (if (x == y) 1 else 0) + count(xs, y)
    }
  }

  def allBelow(l: List, n: Int): Boolean = {
    decreases(l)
    l match {
      case Nil() => true
      case Cons(x, xs) => x < n && allBelow(xs, n)
    }
  }

  def allAtLeast(l: List, n: Int): Boolean = {
    decreases(l)
    l match {
      case Nil() => true
      case Cons(x, xs) => n <= x && allAtLeast(xs, n)
    }
  }

  def isSorted(l: List): Boolean = {
    decreases(l)
    l match {
      case Nil() => true
      case Cons(x, xs) => allAtLeast(xs, x) && isSorted(xs)
    }
  }

  def append(a: List, b: List): List = {
    decreases(a)
    a match {
      case Nil() => b
      case Cons(x, xs) => Cons(x, append(xs, b))
    }
  }

  def smaller(n: Int, l: List): List = {
    decreases(l)
    l match {
      case Nil() => Nil()
      case Cons(x, xs) => if (x < n) Cons(x, smaller(n, xs)) else smaller(n, xs)
    }
  } ensuring (res => allBelow(res, n) && size(res) <= size(l))

  def greater(n: Int, l: List): List = {
    decreases(l)
    l match {
      case Nil() => Nil()
      // bug: elements equal to the pivot are lost
      case Cons(x, xs) => if (x <= n) greater(n, xs) else Cons(x, greater(n, xs))
    }
  } ensuring (res => allAtLeast(res, n) && size(res) <= size(l))

  def quickSort(l: List): List = {
    require(size(l) < 1000000)
    decreases(size(l))
    l match {
      case Nil() => Nil()
      case Cons(x, xs) => append(quickSort(smaller(x, xs)), Cons(x, quickSort(greater(x, xs))))
    }
  }

  def appendCounts(a: List, b: List, y: Int): Boolean = {
    decreases(a)
    val part = a match {
      case Nil() => true
      case Cons(_, t) => appendCounts(t, b, y)
    }
    part && count(append(a, b), y) == count(a, y) + count(b, y)
  }.holds

  def partsCount(l: List, n: Int, y: Int): Boolean = {
    decreases(l)
    l match {
      case Nil() => count(smaller(n, l), y) + count(greater(n, l), y) == count(l, y)
      case Cons(_, t) =>
        partsCount(t, n, y) && count(smaller(n, l), y) + count(greater(n, l), y) == count(l, y)
    }
  }.holds

  def quickSortCounts(l: List, y: Int): Boolean = {
    require(size(l) < 1000000)
    decreases(size(l))
    val part = l match {
      case Nil() => true
      case Cons(x, xs) =>
        val s = smaller(x, xs)
        val g = greater(x, xs)
        quickSortCounts(s, y) && quickSortCounts(g, y) && partsCount(xs, x, y) &&
          appendCounts(quickSort(s), Cons(x, quickSort(g)), y)
    }
    part && count(quickSort(l), y) == count(l, y)
  }.holds

  // sorted lists around an element make a sorted list
  def joinSorted(a: List, x: Int, b: List): Boolean = {
    require(isSorted(a) && isSorted(b) && allBelow(a, x) && allAtLeast(b, x))
    decreases(a)
    val part = a match {
      case Nil() => true
      case Cons(h, t) => joinSorted(t, x, b) && joinAtLeast(t, x, b, h)
    }
    part && isSorted(append(a, Cons(x, b)))
  }.holds

  def joinAtLeast(a: List, x: Int, b: List, n: Int): Boolean = {
    require(n <= x && allAtLeast(a, n) && allAtLeast(b, x))
    decreases(a)
    val part = a match {
      case Nil() => atLeastLess(b, x, n)
      case Cons(_, t) => joinAtLeast(t, x, b, n)
    }
    part && allAtLeast(append(a, Cons(x, b)), n)
  }.holds

  def atLeastLess(l: List, x: Int, n: Int): Boolean = {
    require(n <= x && allAtLeast(l, x))
    decreases(l)
    val part = l match {
      case Nil() => true
      case Cons(_, t) => atLeastLess(t, x, n)
    }
    part && allAtLeast(l, n)
  }.holds
}
