// Proved: a leftist heap stays one, has its least number at the root, and has what was put in and not taken out.
// pureproof examples/proofs/heap.scala
// 19 valid, 0 invalid, 0 open, 0 depending
import stainless.lang._

object LeftistHeap {
  sealed abstract class Heap
  case class Node(rank: Int, value: Int, left: Heap, right: Heap) extends Heap
  case class Leaf() extends Heap

  // How many nodes lie on the way down that keeps to the right.
  def rank(h: Heap): Int = h match {
    case Node(n, _, _, _) => n
    case Leaf() => 0
  }

  // x above two heaps; that of the lower rank goes to the right.
  def node(x: Int, a: Heap, b: Heap): Heap = {
    if (rank(a) >= rank(b)) Node(rank(b) + 1, x, a, b) else Node(rank(a) + 1, x, b, a)
  }

  def merge(a: Heap, b: Heap): Heap = {
    decreases(a, b)
    a match {
      case Node(_, x, l, r) => b match {
        case Node(_, y, m, s) => if (x <= y) node(x, l, merge(r, b)) else node(y, m, merge(a, s))
        case Leaf() => a
      }
      case Leaf() => b
    }
  }

  def single(x: Int): Heap = Node(1, x, Leaf(), Leaf())

  def insert(x: Int, h: Heap): Heap = merge(single(x), h)

  def least(h: Heap): Int = {
    require(h != Leaf())
    h match {
      case Node(_, x, _, _) => x
    }
  }

  def withoutLeast(h: Heap): Heap = {
    require(h != Leaf())
    h match {
      case Node(_, _, l, r) => merge(l, r)
    }
  }

  // No number is less than low or than one above it, and the ranks are right, and no greater on the right.
  def isHeap(h: Heap, low: Int): Boolean = {
    decreases(h)
    h match {
      case Node(n, x, l, r) =>
        low <= x && n == rank(r) + 1 && rank(r) <= rank(l) && isHeap(l, x) && isHeap(r, x)
      case Leaf() => true
    }
  }

  // How often v is in the heap.
  def count(h: Heap, v: Int): Int = {
    decreases(h)
    h match {
      case Node(_, x, l, r) => (if (x == v) 1 else 0) + count(l, v) + count(r, v)
      case Leaf() => 0
    }
  }

  def nodeIsHeap(x: Int, a: Heap, b: Heap, low: Int): Boolean = {
    require(low <= x && isHeap(a, x) && isHeap(b, x))
    isHeap(node(x, a, b), low)
  }.holds

  def mergeIsHeap(a: Heap, b: Heap, low: Int): Boolean = {
    require(isHeap(a, low) && isHeap(b, low))
    decreases(a, b)
    val parts = a match {
      case Node(_, x, l, r) => b match {
        case Node(_, y, m, s) =>
          if (x <= y) isHeap(b, x) && mergeIsHeap(r, b, x) && nodeIsHeap(x, l, merge(r, b), low)
          else isHeap(a, y) && mergeIsHeap(a, s, y) && nodeIsHeap(y, m, merge(a, s), low)
        case Leaf() => true
      }
      case Leaf() => true
    }
    parts && isHeap(merge(a, b), low)
  }.holds

  def insertIsHeap(x: Int, h: Heap, low: Int): Boolean = {
    require(isHeap(h, low) && low <= x)
    rank(Leaf()) == 0 && isHeap(Leaf(), x) && isHeap(single(x), low) && mergeIsHeap(single(x), h, low) &&
      isHeap(insert(x, h), low)
  }.holds

  def restIsHeap(h: Heap, low: Int): Boolean = {
    require(h != Leaf() && isHeap(h, low))
    (h match {
      case Node(_, x, l, r) => mergeIsHeap(l, r, x)
    }) && isHeap(withoutLeast(h), least(h))
  }.holds

  // x above a heap, and above two that are merged.
  def nodeCounts(x: Int, a: Heap, b: Heap, c: Heap, v: Int): Boolean = {
    count(node(x, a, merge(b, c)), v) == (if (x == v) 1 else 0) + count(a, v) + count(merge(b, c), v)
  }.holds

  def mergeCounts(a: Heap, b: Heap, v: Int): Boolean = {
    decreases(a, b)
    val parts = a match {
      case Node(_, x, l, r) => b match {
        case Node(_, y, m, s) =>
          if (x <= y) mergeCounts(r, b, v) && nodeCounts(x, l, r, b, v)
          else mergeCounts(a, s, v) && nodeCounts(y, m, a, s, v)
        case Leaf() => true
      }
      case Leaf() => true
    }
    parts && count(merge(a, b), v) == count(a, v) + count(b, v)
  }.holds

  def insertCounts(x: Int, h: Heap, v: Int): Boolean = {
    count(Leaf(), v) == 0 && count(single(x), v) == (if (x == v) 1 else 0) && mergeCounts(single(x), h, v) &&
      count(insert(x, h), v) == (if (x == v) 1 else 0) + count(h, v)
  }.holds

  def restCounts(h: Heap, v: Int): Boolean = {
    require(h != Leaf())
    (h match {
      case Node(_, _, l, r) => mergeCounts(l, r, v)
    }) && (if (least(h) == v) 1 else 0) + count(withoutLeast(h), v) == count(h, v)
  }.holds

  // What is in a heap isn't less than its bound.
  def isAtLeast(h: Heap, v: Int, low: Int): Boolean = {
    require(isHeap(h, low) && count(h, v) != 0)
    decreases(h)
    val parts = h match {
      case Node(_, x, l, r) =>
        x == v || (if (count(l, v) != 0) isAtLeast(l, v, x) else isAtLeast(r, v, x))
      case Leaf() => true
    }
    parts && low <= v
  }.holds

  def leastIsLeast(h: Heap, v: Int, low: Int): Boolean = {
    require(isHeap(h, low) && count(h, v) != 0)
    h != Leaf() && isAtLeast(h, v, least(h)) && least(h) <= v
  }.holds
}
