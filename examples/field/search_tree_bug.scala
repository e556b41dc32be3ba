// With a bug, at `// bug`: an equal key comes in again
// Search trees: what is put in is found, and the order stays.
// Andrew W. Appel, "Verified Functional Algorithms" (Software Foundations 3), 2017, the chapter on search trees.
import stainless.lang._

object SearchTree {
  sealed abstract class Tree
  case class Node(left: Tree, value: Int, right: Tree) extends Tree
  case class Leaf() extends Tree

  def contains(t: Tree, x: Int): Boolean = {
    decreases(t)
    t match {
      case Leaf() => false
      case Node(l, v, r) => if (x < v) contains(l, x) else if (v < x) contains(r, x) else true
    }
  }

  def allBelow(t: Tree, n: Int): Boolean = {
    decreases(t)
    t match {
      case Leaf() => true
      case Node(l, v, r) => v < n && allBelow(l, n) && allBelow(r, n)
    }
  }

  def allAbove(t: Tree, n: Int): Boolean = {
    decreases(t)
    t match {
      case Leaf() => true
      case Node(l, v, r) => n < v && allAbove(l, n) && allAbove(r, n)
    }
  }

  def isBST(t: Tree): Boolean = {
    decreases(t)
    t match {
      case Leaf() => true
      case Node(l, v, r) => isBST(l) && isBST(r) && allBelow(l, v) && allAbove(r, v)
    }
  }

  def insert(t: Tree, x: Int): Tree = {
    decreases(t)
    t match {
      case Leaf() => Node(Leaf(), x, Leaf())
      case Node(l, v, r) =>
        if (x < v) Node(insert(l, x), v, r)
        // bug: an equal key comes in again
        else Node(l, v, insert(r, x))
    }
  }

  def insertBounds(t: Tree, x: Int, n: Int): Boolean = {
    decreases(t)
    val part = t match {
      case Leaf() => true
      case Node(l, _, r) => insertBounds(l, x, n) && insertBounds(r, x, n)
    }
    part && allBelow(insert(t, x), n) == (allBelow(t, n) && x < n) &&
      allAbove(insert(t, x), n) == (allAbove(t, n) && n < x)
  }.holds

  def insertKeepsBST(t: Tree, x: Int): Boolean = {
    require(isBST(t))
    decreases(t)
    val part = t match {
      case Leaf() => true
      case Node(l, v, r) =>
        insertKeepsBST(l, x) && insertKeepsBST(r, x) && insertBounds(l, x, v) && insertBounds(r, x, v)
    }
    part && isBST(insert(t, x))
  }.holds

  def insertContains(t: Tree, x: Int, y: Int): Boolean = {
    decreases(t)
    t match {
      case Leaf() => contains(insert(t, x), y) == (contains(t, y) || x == y)
      case Node(l, _, r) =>
        insertContains(l, x, y) && insertContains(r, x, y) &&
          contains(insert(t, x), y) == (contains(t, y) || x == y)
    }
  }.holds

  def fromTo(t: Tree, low: Int, high: Int): Int = {
    decreases(t)
    t match {
      case Leaf() => 0
      case Node(l, v, r) =>
        (if (low <= v && v <= high) 1 else 0) + (if (low < v) fromTo(l, low, high) else 0) +
          (if (v < high) fromTo(r, low, high) else 0)
    }
  }

  // below the least there is nothing to count
  def noneFromTo(t: Tree, low: Int, high: Int): Boolean = {
    require(allAbove(t, high) && low <= high)
    decreases(t)
    t match {
      case Leaf() => fromTo(t, low, high) == 0
      case Node(l, _, r) => noneFromTo(l, low, high) && noneFromTo(r, low, high) && fromTo(t, low, high) == 0
    }
  }.holds
}
