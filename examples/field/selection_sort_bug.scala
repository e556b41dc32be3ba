// With a bug, at `// bug`: the smaller head isn't taken
// Selection sort, with fuel.
// Andrew W. Appel, "Verified Functional Algorithms" (Software Foundations 3), 2017, the chapter on selection sort.
import stainless.lang._

object SelectionSort {
  sealed abstract class List
  case class Cons(head: Int, tail: List) extends List
  case class Nil() extends List

  sealed abstract class Nat
  case class Zero() extends Nat
  case class Succ(n: Nat) extends Nat

  case class Selected(least: Int, rest: List)

  def length(l: List): Nat = {
    decreases(l)
    l match {
      case Nil() => Zero()
      case Cons(_, t) => Succ(length(t))
    }
  }

  def count(l: List, y: Int): Int = {
    decreases(l)
    l match {
      case Nil() => 0
      case Cons(h, t) => (if (h == y) 1 else 0) + count(t, y)
    }
  }

  // each element is at least x
  def leAll(x: Int, l: List): Boolean = {
    decreases(l)
    l match {
      case Nil() => true
      case Cons(h, t) => x <= h && leAll(x, t)
    }
  }

  def isSorted(l: List): Boolean = {
    decreases(l)
    l match {
      case Nil() => true
      case Cons(h, t) => leAll(h, t) && isSorted(t)
    }
  }

  // the least of x and the list, and the others
  def select(x: Int, l: List): Selected = {
    decreases(l)
    l match {
      case Nil() => Selected(x, Nil())
      case Cons(h, t) =>
        if (x <= h) {
          val s = select(x, t)
          Selected(s.least, Cons(h, s.rest))
        } else {
          // bug: the smaller head isn't taken
          val s = select(x, t)
          Selected(s.least, Cons(h, s.rest))
        }
    }
  } ensuring (res => res.least <= x && leAll(res.least, res.rest) && length(res.rest) == length(l))

  def selsort(l: List, n: Nat): List = {
    require(length(l) == n)
    decreases(n)
    n match {
      case Zero() => Nil()
      case Succ(m) => l match {
        case Nil() => Nil()
        case Cons(h, t) =>
          val s = select(h, t)
          Cons(s.least, selsort(s.rest, m))
      }
    }
  }

  def selectCounts(x: Int, l: List, y: Int): Boolean = {
    decreases(l)
    val part = l match {
      case Nil() => true
      case Cons(h, t) => if (x <= h) selectCounts(x, t, y) else selectCounts(h, t, y)
    }
    val s = select(x, l)
    part && count(Cons(s.least, s.rest), y) == count(Cons(x, l), y)
  }.holds

  def selsortCounts(l: List, n: Nat, y: Int): Boolean = {
    require(length(l) == n)
    decreases(n)
    val part = n match {
      case Zero() => true
      case Succ(m) => l match {
        case Nil() => true
        case Cons(h, t) => selectCounts(h, t, y) && selsortCounts(select(h, t).rest, m, y)
      }
    }
    part && count(selsort(l, n), y) == count(l, y)
  }.holds

  // what is at most each element is so of the sorted list
  def selsortLeAll(x: Int, l: List, n: Nat): Boolean = {
    require(length(l) == n && leAll(x, l))
    decreases(n)
    val part = n match {
      case Zero() => true
      case Succ(m) => l match {
        case Nil() => true
        case Cons(h, t) =>
          val s = select(h, t)
          selectLeAll(x, h, t) && selsortLeAll(x, s.rest, m)
      }
    }
    part && leAll(x, selsort(l, n))
  }.holds

  def selectLeAll(x: Int, h: Int, l: List): Boolean = {
    require(x <= h && leAll(x, l))
    decreases(l)
    val part = l match {
      case Nil() => true
      case Cons(k, t) => if (h <= k) selectLeAll(x, h, t) else selectLeAll(x, k, t)
    }
    val s = select(h, l)
    part && x <= s.least && leAll(x, s.rest)
  }.holds

  def selsortSorts(l: List, n: Nat): Boolean = {
    require(length(l) == n)
    decreases(n)
    val part = n match {
      case Zero() => true
      case Succ(m) => l match {
        case Nil() => true
        case Cons(h, t) =>
          val s = select(h, t)
          selsortSorts(s.rest, m) && selsortLeAll(s.least, s.rest, m)
      }
    }
    part && isSorted(selsort(l, n))
  }.holds
}
