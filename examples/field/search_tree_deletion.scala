// Search trees: deletion takes the least key of the right subtree.
// T. H. Hibbard, "Some combinatorial properties of certain trees", 1962; in the form of Tobias Nipkow and others,
// "Functional Algorithms, Verified!", 2021.
import stainless.lang._

object SearchTreeDeletion {
  sealed abstract class Tree
  case class Node(left: Tree, value: Int, right: Tree) extends Tree
  case class Leaf() extends Tree

  def contains(t: Tree, x: Int): Boolean = {
    decreases(t)
    t match {
      case Leaf() => false
      case Node(l, v, r) => if (x < v) contains(l, x) else if (v < x) contains(r, x) else true
    }
  }

  def allBelow(t: Tree, n: Int): Boolean = {
    decreases(t)
    t match {
      case Leaf() => true
      case Node(l, v, r) => v < n && allBelow(l, n) && allBelow(r, n)
    }
  }

  def allAbove(t: Tree, n: Int): Boolean = {
    decreases(t)
    t match {
      case Leaf() => true
      case Node(l, v, r) => n < v && allAbove(l, n) && allAbove(r, n)
    }
  }

  def isBST(t: Tree): Boolean = {
    decreases(t)
    t match {
      case Leaf() => true
      case Node(l, v, r) => isBST(l) && isBST(r) && allBelow(l, v) && allAbove(r, v)
    }
  }

  def least(t: Tree): Int = {
    require(t != Leaf())
    decreases(t)
    t match {
      case Node(Leaf(), v, _) => v
      case Node(l, _, _) => least(l)
    }
  }

  def withoutLeast(t: Tree): Tree = {
    require(t != Leaf())
    decreases(t)
    t match {
      case Node(Leaf(), _, r) => r
      case Node(l, v, r) => Node(withoutLeast(l), v, r)
    }
  }

  def delete(t: Tree, x: Int): Tree = {
    decreases(t)
    t match {
      case Leaf() => Leaf()
      case Node(l, v, r) =>
        if (x < v) Node(delete(l, x), v, r)
        else if (v < x) Node(l, v, delete(r, x))
        else if (r == Leaf()) l
        else Node(l, least(r), withoutLeast(r))
    }
  }

  def aboveLess(t: Tree, m: Int, n: Int): Boolean = {
    require(allAbove(t, m) && n <= m)
    decreases(t)
    val part = t match {
      case Leaf() => true
      case Node(l, _, r) => aboveLess(l, m, n) && aboveLess(r, m, n)
    }
    part && allAbove(t, n)
  }.holds

  // nothing that is above n contains n
  def aboveHasNot(t: Tree, n: Int): Boolean = {
    require(allAbove(t, n))
    decreases(t)
    val part = t match {
      case Leaf() => true
      case Node(l, _, r) => aboveHasNot(l, n) && aboveHasNot(r, n)
    }
    part && !contains(t, n)
  }.holds

  def belowHasNot(t: Tree, n: Int): Boolean = {
    require(allBelow(t, n))
    decreases(t)
    val part = t match {
      case Leaf() => true
      case Node(l, _, r) => belowHasNot(l, n) && belowHasNot(r, n)
    }
    part && !contains(t, n)
  }.holds

  // the least is below the others, which are a search tree
  def leastIsLeast(t: Tree, n: Int): Boolean = {
    require(t != Leaf() && isBST(t) && allAbove(t, n))
    decreases(t)
    val part = t match {
      case Node(Leaf(), _, _) => true
      case Node(l, v, r) => leastIsLeast(l, n) && leastBelow(l, v) && aboveLess(r, v, least(l))
      case Leaf() => true
    }
    part && n < least(t) && isBST(withoutLeast(t)) && allAbove(withoutLeast(t), least(t))
  }.holds

  def leastBelow(t: Tree, n: Int): Boolean = {
    require(t != Leaf() && allBelow(t, n))
    decreases(t)
    val part = t match {
      case Node(Leaf(), _, _) => true
      case Node(l, _, _) => leastBelow(l, n)
      case Leaf() => true
    }
    part && least(t) < n && allBelow(withoutLeast(t), n)
  }.holds

  def deleted(t: Tree, x: Int): Boolean = {
    require(isBST(t))
    decreases(t)
    val part = t match {
      case Leaf() => true
      case Node(l, v, r) =>
        if (x < v) deleted(l, x)
        else if (v < x) deleted(r, x)
        else belowHasNot(l, v) && (r == Leaf() || (leastIsLeast(r, v) && aboveHasNot(r, v)))
    }
    part && !contains(delete(t, x), x)
  }.holds
}
