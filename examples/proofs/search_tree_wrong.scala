// Not proved: an equal key is looked for on the left.
// pureproof examples/proofs/search_tree_wrong.scala
// 2 valid, 1 invalid, 0 open, 2 depending
import stainless.lang._

object SearchTree {
  sealed abstract class Tree
  case class Node(left: Tree, key: Int, right: Tree) extends Tree
  case class Leaf() extends Tree

  def contains(t: Tree, x: Int): Boolean = {
    decreases(t)
    t match {
      case Node(l, k, r) => if (x <= k) contains(l, x) else contains(r, x)
      case Leaf() => false
    }
  }

  def insert(t: Tree, x: Int): Tree = {
    decreases(t)
    t match {
      case Node(l, k, r) =>
        if (x < k) Node(insert(l, x), k, r)
        else if (x == k) t
        else Node(l, k, insert(r, x))
      case Leaf() => Node(Leaf(), x, Leaf())
    }
  } ensuring (res => contains(res, x))

  def keepsOthers(t: Tree, x: Int, y: Int): Boolean = {
    require(x != y)
    decreases(t)
    val parts = t match {
      case Node(l, _, r) => keepsOthers(l, x, y) && keepsOthers(r, x, y)
      case Leaf() => true
    }
    parts && contains(insert(t, x), y) == contains(t, y)
  }.holds

  // All keys are at least low and at most high.
  def within(t: Tree, low: Int, high: Int): Boolean = {
    decreases(t)
    t match {
      case Node(l, k, r) => low <= k && k <= high && within(l, low, k) && within(r, k, high)
      case Leaf() => true
    }
  }

  def staysInOrder(t: Tree, x: Int, low: Int, high: Int): Boolean = {
    require(within(t, low, high) && low <= x && x <= high)
    decreases(t)
    val parts = t match {
      case Node(l, k, r) =>
        if (x < k) staysInOrder(l, x, low, k)
        else if (x == k) true
        else staysInOrder(r, x, k, high)
      case Leaf() => within(Leaf(), low, x) && within(Leaf(), x, high)
    }
    parts && within(insert(t, x), low, high)
  }.holds
}
