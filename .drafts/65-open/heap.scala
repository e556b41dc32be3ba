// As first written. node has no call of itself, but in merge it is nested 2 deep, and so not known in round 1; nor is
// isHeap(b, x) in the precondition of mergeIsHeap(r, b, x), where b is known to be a Node, nor isHeap(Leaf(), x).
// Missing: functions without recursion are opened beyond the round, and so are calls on a known constructor.
import stainless.lang._

object Heap {
  // The rank is the number of nodes on the way down to the right.
  sealed abstract class Heap
  case class Node(rank: Int, value: Int, left: Heap, right: Heap) extends Heap
  case class Leaf() extends Heap

  def rank(h: Heap): Int = h match {
    case Node(n, _, _, _) => n
    case Leaf() => 0
  }

  // The node that has the heap of the lower rank on the right.
  def node(x: Int, a: Heap, b: Heap): Heap = {
    if (rank(a) >= rank(b)) Node(rank(b) + 1, x, a, b) else Node(rank(a) + 1, x, b, a)
  }

  def merge(a: Heap, b: Heap): Heap = {
    decreases(a, b)
    a match {
      case Node(_, x, l, r) => b match {
        case Node(_, y, m, s) => if (x <= y) node(x, l, merge(r, b)) else node(y, m, merge(a, s))
        case Leaf() => a
      }
      case Leaf() => b
    }
  }

  def insert(x: Int, h: Heap): Heap = merge(Node(1, x, Leaf(), Leaf()), h)

  def least(h: Heap): Int = {
    require(h != Leaf())
    h match {
      case Node(_, x, _, _) => x
    }
  }

  def withoutLeast(h: Heap): Heap = {
    require(h != Leaf())
    h match {
      case Node(_, _, l, r) => merge(l, r)
    }
  }

  // No number is less than low or than one above it.
  def isHeap(h: Heap, low: Int): Boolean = {
    decreases(h)
    h match {
      case Node(_, x, l, r) => low <= x && isHeap(l, x) && isHeap(r, x)
      case Leaf() => true
    }
  }

  // Each rank is one more than that on the right, which is at most that on the left.
  def isLeftist(h: Heap): Boolean = {
    decreases(h)
    h match {
      case Node(n, _, l, r) => rank(r) <= rank(l) && n == rank(r) + 1 && isLeftist(l) && isLeftist(r)
      case Leaf() => true
    }
  }

  // How often x is in the heap.
  def count(h: Heap, x: Int): Int = {
    decreases(h)
    h match {
      case Node(_, y, l, r) => (if (x == y) 1 else 0) + count(l, x) + count(r, x)
      case Leaf() => 0
    }
  }

  def mergeIsHeap(a: Heap, b: Heap, low: Int): Boolean = {
    require(isHeap(a, low) && isHeap(b, low))
    decreases(a, b)
    val parts = a match {
      case Node(_, x, _, r) => b match {
        case Node(_, y, _, s) => if (x <= y) mergeIsHeap(r, b, x) else mergeIsHeap(a, s, y)
        case Leaf() => true
      }
      case Leaf() => true
    }
    parts && isHeap(merge(a, b), low)
  }.holds

  def mergeIsLeftist(a: Heap, b: Heap): Boolean = {
    require(isLeftist(a) && isLeftist(b))
    decreases(a, b)
    val parts = a match {
      case Node(_, x, _, r) => b match {
        case Node(_, y, _, s) => if (x <= y) mergeIsLeftist(r, b) else mergeIsLeftist(a, s)
        case Leaf() => true
      }
      case Leaf() => true
    }
    parts && isLeftist(merge(a, b))
  }.holds

  def mergeCounts(a: Heap, b: Heap, v: Int): Boolean = {
    decreases(a, b)
    val parts = a match {
      case Node(_, x, _, r) => b match {
        case Node(_, y, _, s) => if (x <= y) mergeCounts(r, b, v) else mergeCounts(a, s, v)
        case Leaf() => true
      }
      case Leaf() => true
    }
    parts && count(merge(a, b), v) == count(a, v) + count(b, v)
  }.holds

  def contains(h: Heap, x: Int): Boolean = {
    decreases(h)
    h match {
      case Node(_, y, l, r) => x == y || contains(l, x) || contains(r, x)
      case Leaf() => false
    }
  }

  // What is in a heap isn't less than the bound.
  def isAtLeast(h: Heap, x: Int, low: Int): Boolean = {
    require(isHeap(h, low) && contains(h, x))
    decreases(h)
    val parts = h match {
      case Node(_, y, l, r) =>
        if (contains(l, x)) isAtLeast(l, x, y) else if (contains(r, x)) isAtLeast(r, x, y) else true
      case Leaf() => true
    }
    parts && low <= x
  }.holds

  def rootIsLeast(h: Heap, x: Int): Boolean = {
    require(isHeap(h, Int.MinValue) && contains(h, x))
    isAtLeast(h, x, least(h)) && least(h) <= x
  }.holds

  def insertIsRight(x: Int, h: Heap, v: Int): Boolean = {
    require(isHeap(h, Int.MinValue) && isLeftist(h))
    val one = Node(1, x, Leaf(), Leaf())
    mergeIsHeap(one, h, Int.MinValue) && mergeIsLeftist(one, h) && mergeCounts(one, h, v) &&
      isHeap(insert(x, h), Int.MinValue) && isLeftist(insert(x, h)) &&
      count(insert(x, h), v) == (if (x == v) 1 else 0) + count(h, v)
  }.holds

  def removalIsRight(h: Heap, v: Int): Boolean = {
    require(h != Leaf() && isHeap(h, Int.MinValue) && isLeftist(h))
    val parts = h match {
      case Node(_, x, l, r) => mergeIsHeap(l, r, x) && mergeIsLeftist(l, r) && mergeCounts(l, r, v)
      case Leaf() => true
    }
    parts && isHeap(withoutLeast(h), least(h)) && isLeftist(withoutLeast(h)) &&
      count(withoutLeast(h), v) + (if (v == least(h)) 1 else 0) == count(h, v)
  }.holds
}
