// mergeCounts alone is open, reason lemmas: all facts are there in round 1 (with ^ in place of + it is valid), but the
// merge(r, b) and merge(a, s) that are handed to nodeCounts are opened too, and cases don't come to the sums. Handing
// on r, b and calling merge in nodeCounts is enough. Missing: cases that look first at what the claim's own calls need.
import stainless.lang._

object LeftistHeap {
  sealed abstract class Heap
  case class Node(rank: Int, value: Int, left: Heap, right: Heap) extends Heap
  case class Leaf() extends Heap

  // How many nodes lie on the way down that keeps to the right.
  def rank(h: Heap): Int = h match {
    case Node(n, _, _, _) => n
    case Leaf() => 0
  }

  // x above two heaps; that of the lower rank goes to the right.
  def node(x: Int, a: Heap, b: Heap): Heap = {
    if (rank(a) >= rank(b)) Node(rank(b) + 1, x, a, b) else Node(rank(a) + 1, x, b, a)
  }

  def merge(a: Heap, b: Heap): Heap = {
    decreases(a, b)
    a match {
      case Node(_, x, l, r) => b match {
        case Node(_, y, m, s) => if (x <= y) node(x, l, merge(r, b)) else node(y, m, merge(a, s))
        case Leaf() => a
      }
      case Leaf() => b
    }
  }

  def single(x: Int): Heap = node(x, Leaf(), Leaf())

  def insert(x: Int, h: Heap): Heap = merge(single(x), h)

  def least(h: Heap): Int = {
    require(h != Leaf())
    h match {
      case Node(_, x, _, _) => x
    }
  }

  def withoutLeast(h: Heap): Heap = {
    require(h != Leaf())
    h match {
      case Node(_, _, l, r) => merge(l, r)
    }
  }

  // No number is less than low or than one above it, and the ranks are right, and no greater on the right.
  def isHeap(h: Heap, low: Int): Boolean = {
    decreases(h)
    h match {
      case Node(n, x, l, r) =>
        low <= x && n == rank(r) + 1 && rank(r) <= rank(l) && isHeap(l, x) && isHeap(r, x)
      case Leaf() => true
    }
  }

  // How often v is in the heap.
  def count(h: Heap, v: Int): Int = {
    decreases(h)
    h match {
      case Node(_, x, l, r) => (if (x == v) 1 else 0) + count(l, v) + count(r, v)
      case Leaf() => 0
    }
  }

  def nodeCounts(x: Int, a: Heap, b: Heap, v: Int): Boolean = {
    count(node(x, a, b), v) == (if (x == v) 1 else 0) + count(a, v) + count(b, v)
  }.holds

  def mergeCounts(a: Heap, b: Heap, v: Int): Boolean = {
    decreases(a, b)
    val parts = a match {
      case Node(_, x, l, r) => b match {
        case Node(_, y, m, s) =>
          if (x <= y) mergeCounts(r, b, v) && nodeCounts(x, l, merge(r, b), v)
          else mergeCounts(a, s, v) && nodeCounts(y, m, merge(a, s), v)
        case Leaf() => true
      }
      case Leaf() => true
    }
    parts && count(merge(a, b), v) == count(a, v) + count(b, v)
  }.holds
}
