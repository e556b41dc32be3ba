// AVL trees: insertion keeps them balanced and adds one element.
// G. M. Adelson-Velsky and E. M. Landis, "An algorithm for the organization of information", 1962; in the form of
// the testcase AVLTree of the Leon verifier (2011).
import leon.lang._

object AVLTree {
  sealed abstract class Tree
  case class Node(left: Tree, value: Int, right: Tree) extends Tree
  case class Leaf() extends Tree

  def max(a: Int, b: Int): Int = {
    if (a < b) b else a
  } ensuring (res => res >= a && res >= b && (res == a || res == b))

  def height(t: Tree): Int = {
    decreases(t)
    t match {
      case Leaf() => 0
      case Node(l, _, r) => max(height(l), height(r)) + 1
    }
  }

  // heights that don't wrap
  def isLow(t: Tree): Boolean = 0 <= height(t) && height(t) < 1000000

  def balanceFactor(t: Tree): Int = t match {
    case Leaf() => 0
    case Node(l, _, r) => height(l) - height(r)
  }

  def isAVL(t: Tree): Boolean = {
    decreases(t)
    t match {
      case Leaf() => true
      case Node(l, _, r) =>
        isAVL(l) && isAVL(r) && isLow(l) && isLow(r) && balanceFactor(t) >= -1 && balanceFactor(t) <= 1
    }
  }

  def contains(t: Tree, x: Int): Boolean = {
    decreases(t)
    t match {
      case Leaf() => false
      case Node(l, v, r) => contains(l, x) || v == x || contains(r, x)
    }
  }

  def rotateRight(t: Tree): Tree = t match {
    case Node(Node(ll, lv, lr), v, r) => Node(ll, lv, Node(lr, v, r))
    case _ => t
  }

  def rotateLeft(t: Tree): Tree = t match {
    case Node(l, v, Node(rl, rv, rr)) => Node(Node(l, v, rl), rv, rr)
    case _ => t
  }

  def balance(t: Tree): Tree = {
    t match {
      case Leaf() => Leaf()
      case Node(l, v, r) =>
        val bfactor = balanceFactor(t)
        if (bfactor > 1) {
          if (balanceFactor(l) < 0) rotateRight(Node(rotateLeft(l), v, r)) else rotateRight(t)
        } else if (bfactor < -1) {
          if (balanceFactor(r) > 0) rotateLeft(Node(l, v, rotateRight(r))) else rotateLeft(t)
        } else t
    }
  }

  def balanced(l: Tree, v: Int, r: Tree): Boolean = {
    require(isAVL(l) && isAVL(r) && isLow(l) && isLow(r))
    require(height(l) - height(r) >= -2 && height(l) - height(r) <= 2)
    isAVL(balance(Node(l, v, r)))
  }.holds

  def insert(t: Tree, x: Int): Tree = {
    require(isAVL(t) && 0 <= height(t) && height(t) < 999999)
    decreases(t)
    t match {
      case Leaf() => Node(Leaf(), x, Leaf())
      case Node(l, v, r) =>
        if (x < v) balance(Node(insert(l, x), v, r))
        else if (x > v) balance(Node(l, v, insert(r, x)))
        else t
    }
  } ensuring (res => isAVL(res) && height(t) <= height(res) && height(res) <= height(t) + 1)

  def balanceKeepsElements(t: Tree, y: Int): Boolean = {
    contains(balance(t), y) == contains(t, y)
  }.holds

  def insertContains(t: Tree, x: Int, y: Int): Boolean = {
    require(isAVL(t) && 0 <= height(t) && height(t) < 999999)
    decreases(t)
    val part = t match {
      case Leaf() => true
      case Node(l, v, r) =>
        if (x < v) insertContains(l, x, y) && balanceKeepsElements(Node(insert(l, x), v, r), y)
        else if (x > v) insertContains(r, x, y) && balanceKeepsElements(Node(l, v, insert(r, x)), y)
        else true
    }
    part && contains(insert(t, x), y) == (contains(t, y) || x == y)
  }.holds
}
