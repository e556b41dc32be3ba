// Leftist heaps: merging keeps the order of the heap, the ranks and the elements.
// C. A. Crane, "Linear lists and priority queues as balanced binary trees", 1972; Chris Okasaki, "Purely Functional
// Data Structures", 1998, section on leftist heaps.
import stainless.lang._

object LeftistHeap {
  sealed abstract class Heap
  case class Node(rank: Int, value: Int, left: Heap, right: Heap) extends Heap
  case class Leaf() extends Heap

  def rank(h: Heap): Int = h match {
    case Leaf() => 0
    case Node(rk, _, _, _) => rk
  }

  def rightHeight(h: Heap): Int = {
    decreases(h)
    h match {
      case Leaf() => 0
      case Node(_, _, _, r) => rightHeight(r) + 1
    }
  }

  def isLeftist(h: Heap): Boolean = {
    decreases(h)
    h match {
      case Leaf() => true
      case Node(rk, _, l, r) =>
        isLeftist(l) && isLeftist(r) && rightHeight(l) >= rightHeight(r) && rk == rightHeight(h)
    }
  }

  def allAtLeast(h: Heap, n: Int): Boolean = {
    decreases(h)
    h match {
      case Leaf() => true
      case Node(_, v, l, r) => n <= v && allAtLeast(l, n) && allAtLeast(r, n)
    }
  }

  def isHeap(h: Heap): Boolean = {
    decreases(h)
    h match {
      case Leaf() => true
      case Node(_, v, l, r) => allAtLeast(l, v) && allAtLeast(r, v) && isHeap(l) && isHeap(r)
    }
  }

  def count(h: Heap, x: Int): Int = {
    decreases(h)
    h match {
      case Leaf() => 0
      case Node(_, v, l, r) => count(l, x) + count(r, x) + (if (v == x) 1 else 0)
    }
  }

  def makeT(x: Int, a: Heap, b: Heap): Heap = {
    require(isLeftist(a) && isLeftist(b))
    if (rank(a) >= rank(b)) Node(rank(b) + 1, x, a, b) else Node(rank(a) + 1, x, b, a)
  } ensuring (res => isLeftist(res))

  def merge(a: Heap, b: Heap): Heap = {
    require(isLeftist(a) && isLeftist(b))
    decreases(a, b)
    a match {
      case Leaf() => b
      case Node(_, x, a1, b1) => b match {
        case Leaf() => a
        case Node(_, y, a2, b2) =>
          if (x <= y) makeT(x, a1, merge(b1, b)) else makeT(y, a2, merge(a, b2))
      }
    }
  } ensuring (res => isLeftist(res))

  def insert(x: Int, h: Heap): Heap = {
    require(isLeftist(h))
    merge(Node(1, x, Leaf(), Leaf()), h)
  } ensuring (res => isLeftist(res))

  def deleteMin(h: Heap): Heap = {
    require(isLeftist(h) && h != Leaf())
    h match {
      case Node(_, _, l, r) => merge(l, r)
    }
  } ensuring (res => isLeftist(res))

  def mergeCounts(a: Heap, b: Heap, x: Int): Boolean = {
    require(isLeftist(a) && isLeftist(b))
    decreases(a, b)
    val part = a match {
      case Leaf() => true
      case Node(_, y, _, r) => b match {
        case Leaf() => true
        case Node(_, z, _, s) => if (y <= z) mergeCounts(r, b, x) else mergeCounts(a, s, x)
      }
    }
    part && count(merge(a, b), x) == count(a, x) + count(b, x)
  }.holds

  def mergeAtLeast(a: Heap, b: Heap, n: Int): Boolean = {
    require(isLeftist(a) && isLeftist(b) && allAtLeast(a, n) && allAtLeast(b, n))
    decreases(a, b)
    val part = a match {
      case Leaf() => true
      case Node(_, y, _, r) => b match {
        case Leaf() => true
        case Node(_, z, _, s) => if (y <= z) mergeAtLeast(r, b, n) else mergeAtLeast(a, s, n)
      }
    }
    part && allAtLeast(merge(a, b), n)
  }.holds

  def atLeastLess(h: Heap, m: Int, n: Int): Boolean = {
    require(allAtLeast(h, m) && n <= m)
    decreases(h)
    h match {
      case Leaf() => allAtLeast(h, n)
      case Node(_, _, l, r) => atLeastLess(l, m, n) && atLeastLess(r, m, n) && allAtLeast(h, n)
    }
  }.holds

  def mergeIsHeap(a: Heap, b: Heap): Boolean = {
    require(isLeftist(a) && isLeftist(b) && isHeap(a) && isHeap(b))
    decreases(a, b)
    val part = a match {
      case Leaf() => true
      case Node(_, y, l, r) => b match {
        case Leaf() => true
        case Node(_, z, k, s) =>
          if (y <= z) mergeIsHeap(r, b) && atLeastLess(k, z, y) && atLeastLess(s, z, y) && mergeAtLeast(r, b, y)
          else mergeIsHeap(a, s) && atLeastLess(l, y, z) && atLeastLess(r, y, z) && mergeAtLeast(a, s, z)
      }
    }
    part && isHeap(merge(a, b))
  }.holds
}
