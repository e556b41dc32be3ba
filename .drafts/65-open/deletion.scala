// Open without what is told of the empty tree: a call on it that is nested 2 deep isn't known, as within(Leaf(), low,
// x) in the claim of insertKeepsOrder, and contains(Leaf(), y) in those of leastGoes and deleteFinds. Missing: a call
// whose argument has a known constructor is opened beyond the round, where its body then makes no call.
import stainless.lang._

object Deletion {
  sealed abstract class Tree
  case class Node(left: Tree, key: Int, right: Tree) extends Tree
  case class Leaf() extends Tree

  def contains(t: Tree, x: Int): Boolean = {
    decreases(t)
    t match {
      case Node(l, k, r) => if (x < k) contains(l, x) else if (x > k) contains(r, x) else true
      case Leaf() => false
    }
  }

  // All keys are above low and below high, and the tree is in order.
  def within(t: Tree, low: Int, high: Int): Boolean = {
    decreases(t)
    t match {
      case Node(l, k, r) => low < k && k < high && within(l, low, k) && within(r, k, high)
      case Leaf() => true
    }
  }

  def insert(t: Tree, x: Int): Tree = {
    decreases(t)
    t match {
      case Node(l, k, r) =>
        if (x < k) Node(insert(l, x), k, r)
        else if (x > k) Node(l, k, insert(r, x))
        else t
      case Leaf() => Node(Leaf(), x, Leaf())
    }
  }

  def least(t: Tree): Int = {
    require(t != Leaf())
    decreases(t)
    t match {
      case Node(l, k, _) => if (l == Leaf()) k else least(l)
    }
  }

  def withoutLeast(t: Tree): Tree = {
    require(t != Leaf())
    decreases(t)
    t match {
      case Node(l, k, r) => if (l == Leaf()) r else Node(withoutLeast(l), k, r)
    }
  }

  // The least key of the right subtree takes the place of the key.
  def delete(t: Tree, x: Int): Tree = {
    decreases(t)
    t match {
      case Node(l, k, r) =>
        if (x < k) Node(delete(l, x), k, r)
        else if (x > k) Node(l, k, delete(r, x))
        else if (r == Leaf()) l
        else Node(l, least(r), withoutLeast(r))
      case Leaf() => t
    }
  }

  def insertFinds(t: Tree, x: Int, y: Int): Boolean = {
    decreases(t)
    val parts = t match {
      case Node(l, _, r) => insertFinds(l, x, y) && insertFinds(r, x, y)
      case Leaf() => true
    }
    parts && contains(insert(t, x), y) == (x == y || contains(t, y))
  }.holds

  def insertKeepsOrder(t: Tree, x: Int, low: Int, high: Int): Boolean = {
    require(within(t, low, high) && low < x && x < high)
    decreases(t)
    val parts = t match {
      case Node(l, k, r) =>
        x == k || (if (x < k) insertKeepsOrder(l, x, low, k) else insertKeepsOrder(r, x, k, high))
      case Leaf() => true
    }
    parts && within(insert(t, x), low, high)
  }.holds

  // What is within bounds is within wider ones.
  def widens(t: Tree, low: Int, high: Int, lower: Int, higher: Int): Boolean = {
    require(within(t, low, high) && lower <= low && high <= higher)
    decreases(t)
    val parts = t match {
      case Node(l, k, r) => widens(l, low, k, lower, k) && widens(r, k, high, k, higher)
      case Leaf() => true
    }
    parts && within(t, lower, higher)
  }.holds

  def notOutside(t: Tree, x: Int, low: Int, high: Int): Boolean = {
    require(within(t, low, high) && (x <= low || high <= x))
    decreases(t)
    val parts = t match {
      case Node(l, k, r) => notOutside(l, x, low, k) && notOutside(r, x, k, high)
      case Leaf() => true
    }
    parts && !contains(t, x)
  }.holds

  // The least key is below all others, which are what is left without it.
  def leastGoes(t: Tree, y: Int, low: Int, high: Int): Boolean = {
    require(t != Leaf() && within(t, low, high))
    decreases(t)
    val parts = t match {
      case Node(l, k, r) =>
        (l == Leaf() || leastGoes(l, y, low, k)) && (k < y || notOutside(r, y, k, high))
      case Leaf() => true
    }
    parts && low < least(t) && least(t) < high && within(withoutLeast(t), least(t), high) &&
      contains(t, y) == (y == least(t) || contains(withoutLeast(t), y))
  }.holds

  def deleteKeepsOrder(t: Tree, x: Int, low: Int, high: Int): Boolean = {
    require(within(t, low, high))
    decreases(t)
    val parts = t match {
      case Node(l, k, r) =>
        if (x < k) deleteKeepsOrder(l, x, low, k)
        else if (x > k) deleteKeepsOrder(r, x, k, high)
        else if (r == Leaf()) widens(l, low, k, low, high)
        else leastGoes(r, x, k, high) && widens(l, low, k, low, least(r))
      case Leaf() => true
    }
    parts && within(delete(t, x), low, high)
  }.holds

  def deleteFinds(t: Tree, x: Int, y: Int, low: Int, high: Int): Boolean = {
    require(within(t, low, high))
    decreases(t)
    val parts = t match {
      case Node(l, k, r) =>
        if (x < k) deleteFinds(l, x, y, low, k)
        else if (x > k) deleteFinds(r, x, y, k, high)
        else (y < k || notOutside(l, y, low, k)) &&
          (r == Leaf() || (leastGoes(r, y, k, high) &&
            (least(r) < y || notOutside(withoutLeast(r), y, least(r), high))))
      case Leaf() => true
    }
    parts && contains(delete(t, x), y) == (x != y && contains(t, y))
  }.holds
}
