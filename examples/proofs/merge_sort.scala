// Proved: merge sort gives a sorted list that has each number as often as the list.
// pureproof examples/proofs/merge_sort.scala
// 23 valid, 0 invalid, 0 open, 0 depending
import stainless.lang._

object MergeSort {
  sealed abstract class List
  case class Cons(head: Int, tail: List) extends List
  case class Nil() extends List

  // Lists that are still to be merged: of one number, of two, of four and so on. A gap stands where there is none.
  sealed abstract class Runs
  case class Run(first: List, rest: Runs) extends Runs
  case class Gap(rest: Runs) extends Runs
  case class End() extends Runs

  // Goes down in either list.
  def merge(a: List, b: List): List = {
    decreases(a, b)
    a match {
      case Cons(x, s) => b match {
        case Cons(y, t) => if (x <= y) Cons(x, merge(s, b)) else Cons(y, merge(a, t))
        case Nil() => a
      }
      case Nil() => b
    }
  }

  // One run more: two of one length become one of the next, as when one is added to a binary number.
  def add(l: List, runs: Runs): Runs = {
    decreases(runs)
    runs match {
      case Run(m, rest) => Gap(add(merge(l, m), rest))
      case Gap(rest) => Run(l, rest)
      case End() => Run(l, End())
    }
  }

  // Each number is a run of its own.
  def runs(l: List): Runs = {
    decreases(l)
    l match {
      case Cons(x, t) => add(Cons(x, Nil()), runs(t))
      case Nil() => End()
    }
  }

  def merged(runs: Runs): List = {
    decreases(runs)
    runs match {
      case Run(l, rest) => merge(l, merged(rest))
      case Gap(rest) => merged(rest)
      case End() => Nil()
    }
  }

  def sort(l: List): List = {
    assert(runsAreSorted(l) && mergedIsSorted(runs(l)))
    merged(runs(l))
  } ensuring (res => isSorted(res, Int.MinValue))

  // The list is in order, and no element is less than low.
  def isSorted(l: List, low: Int): Boolean = {
    decreases(l)
    l match {
      case Cons(h, t) => low <= h && isSorted(t, h)
      case Nil() => true
    }
  }

  def areSorted(runs: Runs): Boolean = {
    decreases(runs)
    runs match {
      case Run(l, rest) => isSorted(l, Int.MinValue) && areSorted(rest)
      case Gap(rest) => areSorted(rest)
      case End() => true
    }
  }

  def mergeIsSorted(a: List, b: List, low: Int): Boolean = {
    require(isSorted(a, low) && isSorted(b, low))
    decreases(a, b)
    val rest = a match {
      case Cons(x, s) => b match {
        case Cons(y, t) =>
          if (x <= y) isSorted(b, x) && mergeIsSorted(s, b, x) else isSorted(a, y) && mergeIsSorted(a, t, y)
        case Nil() => true
      }
      case Nil() => true
    }
    rest && isSorted(merge(a, b), low)
  }.holds

  def oneIsSorted(x: Int): Boolean = {
    isSorted(Cons(x, Nil()), Int.MinValue)
  }.holds

  def addIsSorted(l: List, runs: Runs): Boolean = {
    require(isSorted(l, Int.MinValue) && areSorted(runs))
    decreases(runs)
    val rest = runs match {
      case Run(m, rest) => mergeIsSorted(l, m, Int.MinValue) && addIsSorted(merge(l, m), rest)
      case Gap(_) => true
      case End() => true
    }
    rest && areSorted(add(l, runs))
  }.holds

  def runsAreSorted(l: List): Boolean = {
    decreases(l)
    val rest = l match {
      case Cons(x, t) => oneIsSorted(x) && runsAreSorted(t) && addIsSorted(Cons(x, Nil()), runs(t))
      case Nil() => true
    }
    rest && areSorted(runs(l))
  }.holds

  def mergedIsSorted(runs: Runs): Boolean = {
    require(areSorted(runs))
    decreases(runs)
    val rest = runs match {
      case Run(l, rest) => mergedIsSorted(rest) && mergeIsSorted(l, merged(rest), Int.MinValue)
      case Gap(rest) => mergedIsSorted(rest)
      case End() => true
    }
    rest && isSorted(merged(runs), Int.MinValue)
  }.holds

  // Counting v on from n.
  def one(x: Int, v: Int, n: Int): Int = if (x == v) n + 1 else n

  def count(l: List, v: Int, n: Int): Int = {
    decreases(l)
    l match {
      case Cons(x, t) => one(x, v, count(t, v, n))
      case Nil() => n
    }
  }

  def countIn(runs: Runs, v: Int, n: Int): Int = {
    decreases(runs)
    runs match {
      case Run(l, rest) => count(l, v, countIn(rest, v, n))
      case Gap(rest) => countIn(rest, v, n)
      case End() => n
    }
  }

  def onesSwap(x: Int, y: Int, v: Int, n: Int): Boolean = {
    one(y, v, one(x, v, n)) == one(x, v, one(y, v, n))
  }.holds

  // One more to begin with is one more in the end.
  def countsOn(l: List, x: Int, v: Int, n: Int): Boolean = {
    decreases(l)
    val rest = l match {
      case Cons(y, t) => countsOn(t, x, v, n) && onesSwap(x, y, v, count(t, v, n))
      case Nil() => true
    }
    rest && count(l, v, one(x, v, n)) == one(x, v, count(l, v, n))
  }.holds

  def mergeCounts(a: List, b: List, v: Int, n: Int): Boolean = {
    decreases(a, b)
    val rest = a match {
      case Cons(x, s) => b match {
        case Cons(y, t) =>
          if (x <= y) mergeCounts(s, b, v, n)
          else mergeCounts(a, t, v, n) && countsOn(a, y, v, count(t, v, n))
        case Nil() => true
      }
      case Nil() => true
    }
    rest && count(a, v, count(b, v, n)) == count(merge(a, b), v, n)
  }.holds

  def oneCounts(x: Int, v: Int, n: Int): Boolean = {
    count(Cons(x, Nil()), v, n) == one(x, v, n)
  }.holds

  def addCounts(l: List, runs: Runs, v: Int, n: Int): Boolean = {
    decreases(runs)
    val rest = runs match {
      case Run(m, rest) => addCounts(merge(l, m), rest, v, n) && mergeCounts(l, m, v, countIn(rest, v, n))
      case Gap(_) => true
      case End() => true
    }
    rest && countIn(add(l, runs), v, n) == count(l, v, countIn(runs, v, n))
  }.holds

  def runsCount(l: List, v: Int, n: Int): Boolean = {
    decreases(l)
    val rest = l match {
      case Cons(x, t) =>
        runsCount(t, v, n) && addCounts(Cons(x, Nil()), runs(t), v, n) && oneCounts(x, v, count(t, v, n))
      case Nil() => true
    }
    rest && countIn(runs(l), v, n) == count(l, v, n)
  }.holds

  def mergedCounts(runs: Runs, v: Int, n: Int): Boolean = {
    decreases(runs)
    val rest = runs match {
      case Run(l, rest) => mergedCounts(rest, v, n) && mergeCounts(l, merged(rest), v, n)
      case Gap(rest) => mergedCounts(rest, v, n)
      case End() => true
    }
    rest && count(merged(runs), v, n) == countIn(runs, v, n)
  }.holds

  def sameCount(l: List, v: Int): Boolean = {
    runsCount(l, v, 0) && mergedCounts(runs(l), v, 0) && count(sort(l), v, 0) == count(l, v, 0)
  }.holds
}
