// Quick sort on lists gives a sorted list.
// C. A. R. Hoare, "Quicksort", 1962; the proof is that of Tobias Nipkow and others, "Functional Algorithms,
// Verified!", 2021, the chapter on sorting. Lists of less than a million elements.
import stainless.lang._

object QuickSortSorted {
  sealed abstract class List
  case class Cons(head: Int, tail: List) extends List
  case class Nil() extends List

  // up to 1000000
  def size(l: List): Int = {
    decreases(l)
    l match {
      case Nil() => 0
      case Cons(_, xs) =>
        val n = size(xs)
        if (n < 1000000) n + 1 else n
    }
  } ensuring (res => 0 <= res && res <= 1000000)

  // all elements are in the range
  def within(l: List, low: Int, high: Int): Boolean = {
    decreases(l)
    l match {
      case Nil() => true
      case Cons(x, xs) => low <= x && x <= high && within(xs, low, high)
    }
  }

  // neighbours are in order, and the first is at least `low`
  def sortedFrom(l: List, low: Int): Boolean = {
    decreases(l)
    l match {
      case Nil() => true
      case Cons(x, xs) => low <= x && sortedFrom(xs, x)
    }
  }

  def append(a: List, b: List): List = {
    decreases(a)
    a match {
      case Nil() => b
      case Cons(x, xs) => Cons(x, append(xs, b))
    }
  }

  def smaller(n: Int, l: List): List = {
    decreases(l)
    l match {
      case Nil() => Nil()
      case Cons(x, xs) => if (x <= n) Cons(x, smaller(n, xs)) else smaller(n, xs)
    }
  } ensuring (res => size(res) <= size(l))

  def greater(n: Int, l: List): List = {
    decreases(l)
    l match {
      case Nil() => Nil()
      case Cons(x, xs) => if (x <= n) greater(n, xs) else Cons(x, greater(n, xs))
    }
  } ensuring (res => size(res) <= size(l))

  def quickSort(l: List): List = {
    require(size(l) < 1000000)
    decreases(size(l))
    l match {
      case Nil() => Nil()
      case Cons(x, xs) => append(quickSort(smaller(x, xs)), Cons(x, quickSort(greater(x, xs))))
    }
  }

  def smallerWithin(n: Int, l: List, low: Int, high: Int): Boolean = {
    require(within(l, low, high))
    decreases(l)
    val part = l match {
      case Nil() => true
      case Cons(_, xs) => smallerWithin(n, xs, low, high)
    }
    part && within(smaller(n, l), low, n)
  }.holds

  def greaterWithin(n: Int, l: List, low: Int, high: Int): Boolean = {
    require(within(l, low, high))
    decreases(l)
    val part = l match {
      case Nil() => true
      case Cons(_, xs) => greaterWithin(n, xs, low, high)
    }
    part && within(greater(n, l), n, high)
  }.holds

  def appendWithin(a: List, b: List, low: Int, high: Int): Boolean = {
    decreases(a)
    val part = a match {
      case Nil() => true
      case Cons(_, xs) => appendWithin(xs, b, low, high)
    }
    part && within(append(a, b), low, high) == (within(a, low, high) && within(b, low, high))
  }.holds

  def wider(l: List, low: Int, high: Int, lower: Int, higher: Int): Boolean = {
    require(within(l, low, high) && lower <= low && high <= higher)
    decreases(l)
    val part = l match {
      case Nil() => true
      case Cons(_, xs) => wider(xs, low, high, lower, higher)
    }
    part && within(l, lower, higher)
  }.holds

  // a sorted list up to x, then x, then a sorted list from x
  def joinSorted(a: List, x: Int, b: List, low: Int): Boolean = {
    require(sortedFrom(a, low) && within(a, low, x) && low <= x && sortedFrom(b, x))
    decreases(a)
    val part = a match {
      case Nil() => true
      case Cons(h, t) => fromHead(t, h, low, x) && joinSorted(t, x, b, h)
    }
    part && sortedFrom(append(a, Cons(x, b)), low)
  }.holds

  def fromHead(l: List, h: Int, low: Int, high: Int): Boolean = {
    require(sortedFrom(l, h) && within(l, low, high))
    decreases(l)
    val part = l match {
      case Nil() => true
      case Cons(x, xs) => fromHead(xs, x, low, high) && wider(xs, x, high, h, high)
    }
    part && within(l, h, high)
  }.holds

  def quickSortSorts(l: List, low: Int, high: Int): Boolean = {
    require(size(l) < 1000000 && within(l, low, high))
    decreases(size(l))
    val part = l match {
      case Nil() => true
      case Cons(x, xs) =>
        val s = smaller(x, xs)
        val g = greater(x, xs)
        smallerWithin(x, xs, low, high) && greaterWithin(x, xs, low, high) &&
          quickSortSorts(s, low, x) && quickSortSorts(g, x, high) && joinSorted(quickSort(s), x, quickSort(g), low) &&
          wider(quickSort(s), low, x, low, high) && wider(quickSort(g), x, high, low, high) &&
          appendWithin(quickSort(s), Cons(x, quickSort(g)), low, high)
    }
    part && sortedFrom(quickSort(l), low) && within(quickSort(l), low, high)
  }.holds
}
