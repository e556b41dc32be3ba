// Merge sort by splitting a list in two.
// The form is that of the testcase MergeSort of the Leon verifier (Suter, Köksal, Kuncak, "Satisfiability modulo
// recursive programs", 2011); the content, there a set, is a count of each element.
import leon.lang._

object MergeSort {
  sealed abstract class List
  case class Cons(head: Int, tail: List) extends List
  case class Nil() extends List

  case class Pair(fst: List, snd: List)

  // up to 1000000
  def size(l: List): Int = {
    decreases(l)
    l match {
      case Nil() => 0
      case Cons(_, xs) =>
        val n = size(xs)
        if (n < 1000000) n + 1 else n
    }
  } ensuring (res => 0 <= res && res <= 1000000)

  def count(l: List, y: Int): Int = {
    decreases(l)
    l match {
      case Nil() => 0
      case Cons(x, xs) => if (x == y) 1 + count(xs, y) else count(xs, y)
    }
  }

  def isSorted(l: List): Boolean = {
    decreases(l)
    l match {
      case Nil() => true
      case Cons(x, xs) => xs match {
        case Nil() => true
        case Cons(y, _) => x <= y && isSorted(xs)
      }
    }
  }

  def merge(a: List, b: List): List = {
    require(isSorted(a) && isSorted(b))
    decreases(a, b)
    a match {
      case Nil() => b
      case Cons(x, xs) => b match {
        case Nil() => a
        case Cons(y, ys) => if (x <= y) Cons(x, merge(xs, b)) else Cons(y, merge(a, ys))
      }
    }
  } ensuring (res => isSorted(res))

  def split(l: List): Pair = {
    decreases(l)
    l match {
      case Nil() => Pair(Nil(), Nil())
      case Cons(_, Nil()) => Pair(l, Nil())
      case Cons(x1, Cons(x2, xs)) =>
        val p = split(xs)
        Pair(Cons(x1, p.fst), Cons(x2, p.snd))
    }
  } ensuring (res => size(res.fst) <= size(l) && size(res.snd) <= size(l))

  // a list of two and more has two smaller parts
  def splitShrinks(l: List): Boolean = {
    require(size(l) < 1000000)
    l match {
      case Cons(_, Cons(_, _)) => size(split(l).fst) < size(l) && size(split(l).snd) < size(l)
      case _ => true
    }
  }.holds

  def mergeSort(l: List): List = {
    require(size(l) < 1000000)
    decreases(size(l))
    l match {
      case Nil() => l
      case Cons(_, Nil()) => l
      case _ =>
        assert(splitShrinks(l))
        val p = split(l)
        merge(mergeSort(p.fst), mergeSort(p.snd))
    }
  } ensuring (res => isSorted(res))

  def mergeCounts(a: List, b: List, y: Int): Boolean = {
    require(isSorted(a) && isSorted(b))
    decreases(a, b)
    val part = a match {
      case Nil() => true
      case Cons(x, xs) => b match {
        case Nil() => true
        case Cons(z, zs) => if (x <= z) mergeCounts(xs, b, y) else mergeCounts(a, zs, y)
      }
    }
    part && count(merge(a, b), y) == count(a, y) + count(b, y)
  }.holds

  def splitCounts(l: List, y: Int): Boolean = {
    decreases(l)
    val part = l match {
      case Cons(_, Cons(_, xs)) => splitCounts(xs, y)
      case _ => true
    }
    part && count(split(l).fst, y) + count(split(l).snd, y) == count(l, y)
  }.holds

  def mergeSortCounts(l: List, y: Int): Boolean = {
    require(size(l) < 1000000)
    decreases(size(l))
    l match {
      case Cons(_, Cons(_, _)) =>
        assert(splitShrinks(l))
        val p = split(l)
        splitCounts(l, y) && mergeSortCounts(p.fst, y) && mergeSortCounts(p.snd, y) &&
          mergeCounts(mergeSort(p.fst), mergeSort(p.snd), y) && count(mergeSort(l), y) == count(l, y)
      case _ => count(mergeSort(l), y) == count(l, y)
    }
  }.holds
}
