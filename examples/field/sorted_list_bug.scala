// With a bug, at `// bug`: an element of both comes twice
// Sets as strictly sorted lists: union, intersection, difference, deletion.
// Richard Bird and Philip Wadler, "Introduction to Functional Programming", 1988, the chapter on sets.
import stainless.lang._

object SortedList {
  sealed abstract class List
  case class Cons(head: Int, tail: List) extends List
  case class Nil() extends List

  def contains(l: List, x: Int): Boolean = {
    decreases(l)
    l match {
      case Nil() => false
      case Cons(h, t) => h == x || contains(t, x)
    }
  }

  def above(l: List, n: Int): Boolean = {
    decreases(l)
    l match {
      case Nil() => true
      case Cons(h, t) => n < h && above(t, n)
    }
  }

  def isSet(l: List): Boolean = {
    decreases(l)
    l match {
      case Nil() => true
      case Cons(h, t) => above(t, h) && isSet(t)
    }
  }

  def union(a: List, b: List): List = {
    decreases(a, b)
    a match {
      case Nil() => b
      case Cons(x, xs) => b match {
        case Nil() => a
        case Cons(y, ys) =>
          if (x < y) Cons(x, union(xs, b))
          else if (y < x) Cons(y, union(a, ys))
          // bug: an element of both comes twice
          else Cons(x, union(xs, b))
      }
    }
  }

  def intersection(a: List, b: List): List = {
    decreases(a, b)
    a match {
      case Nil() => Nil()
      case Cons(x, xs) => b match {
        case Nil() => Nil()
        case Cons(y, ys) =>
          if (x < y) intersection(xs, b)
          else if (y < x) intersection(a, ys)
          else Cons(x, intersection(xs, ys))
      }
    }
  }

  def delete(l: List, x: Int): List = {
    decreases(l)
    l match {
      case Nil() => Nil()
      case Cons(h, t) => if (h == x) t else if (x < h) l else Cons(h, delete(t, x))
    }
  }

  def aboveHasNot(l: List, m: Int, x: Int): Boolean = {
    require(above(l, m) && x <= m)
    decreases(l)
    l match {
      case Nil() => !contains(l, x)
      case Cons(_, t) => aboveHasNot(t, m, x) && !contains(l, x)
    }
  }.holds

  def aboveLess(l: List, m: Int, n: Int): Boolean = {
    require(above(l, m) && n <= m)
    decreases(l)
    l match {
      case Nil() => above(l, n)
      case Cons(_, t) => aboveLess(t, m, n) && above(l, n)
    }
  }.holds

  def unionContains(a: List, b: List, x: Int): Boolean = {
    decreases(a, b)
    val part = a match {
      case Nil() => true
      case Cons(h, s) => b match {
        case Nil() => true
        case Cons(k, t) =>
          if (h < k) unionContains(s, b, x) else if (k < h) unionContains(a, t, x) else unionContains(s, t, x)
      }
    }
    part && contains(union(a, b), x) == (contains(a, x) || contains(b, x))
  }.holds

  def unionAbove(a: List, b: List, n: Int): Boolean = {
    require(above(a, n) && above(b, n))
    decreases(a, b)
    val part = a match {
      case Nil() => true
      case Cons(h, s) => b match {
        case Nil() => true
        case Cons(k, t) =>
          if (h < k) unionAbove(s, b, n) else if (k < h) unionAbove(a, t, n) else unionAbove(s, t, n)
      }
    }
    part && above(union(a, b), n)
  }.holds

  def unionIsSet(a: List, b: List): Boolean = {
    require(isSet(a) && isSet(b))
    decreases(a, b)
    val part = a match {
      case Nil() => true
      case Cons(h, s) => b match {
        case Nil() => true
        case Cons(k, t) =>
          if (h < k) unionIsSet(s, b) && aboveLess(t, k, h) && unionAbove(s, b, h)
          else if (k < h) unionIsSet(a, t) && aboveLess(s, h, k) && unionAbove(a, t, k)
          else unionIsSet(s, t) && unionAbove(s, t, h)
      }
    }
    part && isSet(union(a, b))
  }.holds

  def intersectionContains(a: List, b: List, x: Int): Boolean = {
    require(isSet(a) && isSet(b))
    decreases(a, b)
    val part = a match {
      case Nil() => true
      case Cons(h, s) => b match {
        case Nil() => true
        case Cons(k, t) =>
          if (h < k) intersectionContains(s, b, x) && (x != h || aboveHasNot(t, k, x))
          else if (k < h) intersectionContains(a, t, x) && (x != k || aboveHasNot(s, h, x))
          else intersectionContains(s, t, x)
      }
    }
    part && contains(intersection(a, b), x) == (contains(a, x) && contains(b, x))
  }.holds

  def deleteContains(l: List, x: Int, y: Int): Boolean = {
    require(isSet(l))
    decreases(l)
    val part = l match {
      case Nil() => true
      case Cons(h, t) => deleteContains(t, x, y) && (h < x || aboveHasNot(t, h, x))
    }
    part && contains(delete(l, x), y) == (contains(l, y) && x != y)
  }.holds
}
