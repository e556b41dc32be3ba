// With a bug, at `// bug`: the wrong child is kept
// Skew heaps: merging swaps the children, keeps the order of the heap and the elements.
// Daniel D. Sleator and Robert E. Tarjan, "Self-adjusting heaps", SIAM Journal on Computing 15 (1986).
import stainless.lang._

object SkewHeap {
  sealed abstract class Heap
  case class Node(left: Heap, value: Int, right: Heap) extends Heap
  case class Leaf() extends Heap

  sealed abstract class List
  case class Cons(head: Int, tail: List) extends List
  case class Nil() extends List

  def count(h: Heap, x: Int): Int = {
    decreases(h)
    h match {
      case Leaf() => 0
      case Node(l, v, r) => (if (v == x) 1 else 0) + count(l, x) + count(r, x)
    }
  }

  def occurrences(l: List, x: Int): Int = {
    decreases(l)
    l match {
      case Nil() => 0
      case Cons(h, t) => (if (h == x) 1 else 0) + occurrences(t, x)
    }
  }

  // n is at most the root, if there is one
  def atMostRoot(n: Int, h: Heap): Boolean = h match {
    case Leaf() => true
    case Node(_, v, _) => n <= v
  }

  def isHeap(h: Heap): Boolean = {
    decreases(h)
    h match {
      case Leaf() => true
      case Node(l, v, r) => atMostRoot(v, l) && atMostRoot(v, r) && isHeap(l) && isHeap(r)
    }
  }

  def merge(a: Heap, b: Heap): Heap = {
    require(isHeap(a) && isHeap(b))
    decreases(a, b)
    a match {
      case Leaf() => b
      case Node(l1, x, r1) => b match {
        case Leaf() => a
        case Node(l2, y, r2) =>
          // bug: the wrong child is kept
          if (x <= y) Node(merge(r1, b), x, r1) else Node(merge(a, r2), y, l2)
      }
    }
  } ensuring (res => isHeap(res))

  def insert(x: Int, h: Heap): Heap = {
    require(isHeap(h))
    merge(Node(Leaf(), x, Leaf()), h)
  } ensuring (res => isHeap(res))

  def deleteMin(h: Heap): Heap = {
    require(isHeap(h) && h != Leaf())
    h match {
      case Node(l, _, r) => merge(l, r)
    }
  } ensuring (res => isHeap(res))

  def fromList(l: List): Heap = {
    decreases(l)
    l match {
      case Nil() => Leaf()
      case Cons(h, t) => insert(h, fromList(t))
    }
  } ensuring (res => isHeap(res))

  def mergeCounts(a: Heap, b: Heap, x: Int): Boolean = {
    require(isHeap(a) && isHeap(b))
    decreases(a, b)
    a match {
      case Leaf() => count(merge(a, b), x) == count(a, x) + count(b, x)
      case Node(_, v, r) => b match {
        case Leaf() => count(merge(a, b), x) == count(a, x) + count(b, x)
        case Node(_, w, s) =>
          (if (v <= w) mergeCounts(r, b, x) else mergeCounts(a, s, x)) &&
            count(merge(a, b), x) == count(a, x) + count(b, x)
      }
    }
  }.holds

  def insertCounts(y: Int, h: Heap, x: Int): Boolean = {
    require(isHeap(h))
    mergeCounts(Node(Leaf(), y, Leaf()), h, x) && count(insert(y, h), x) == count(h, x) + (if (x == y) 1 else 0)
  }.holds

  def deleteMinCounts(h: Heap, x: Int): Boolean = {
    require(isHeap(h) && h != Leaf())
    h match {
      case Node(l, v, r) =>
        mergeCounts(l, r, x) && count(deleteMin(h), x) == count(h, x) - (if (v == x) 1 else 0)
    }
  }.holds

  def fromListCounts(l: List, x: Int): Boolean = {
    decreases(l)
    val part = l match {
      case Nil() => true
      case Cons(h, t) => fromListCounts(t, x) && insertCounts(h, fromList(t), x)
    }
    part && count(fromList(l), x) == occurrences(l, x)
  }.holds
}
