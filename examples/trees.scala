import stainless.lang._

object Trees {
  // A search tree: keys on the left are at most the key of a node, those on the right at least.
  sealed trait Tree[V]
  case class Node[V](left: Tree[V], key: Int, value: V, right: Tree[V]) extends Tree[V]
  case class Leaf[V]() extends Tree[V]

  // All keys lie between low and high and stand in order.
  def isOrdered[V](t: Tree[V], low: Int, high: Int): Boolean = {
    decreases(t)
    t match {
      case Node(l, k, _, r) => low <= k && k <= high && isOrdered(l, low, k) && isOrdered(r, k, high)
      case Leaf() => true
    }
  }

  def member[V](t: Tree[V], key: Int): Boolean = {
    decreases(t)
    t match {
      case Node(l, k, _, r) =>
        if (key < k) member(l, key)
        else if (key > k) member(r, key)
        else true
      case Leaf() => false
    }
  }

  def insert[V](t: Tree[V], key: Int, value: V): Tree[V] = {
    decreases(t)
    t match {
      case Node(l, k, v, r) =>
        if (key < k) Node(insert(l, key, value), k, v, r)
        else if (key > k) Node(l, k, v, insert(r, key, value))
        else Node(l, k, value, r)
      case Leaf() => Node(Leaf[V](), key, value, Leaf[V]())
    }
  } ensuring (res => member(res, key))

  // A tree that is in order stays so.
  def staysOrdered[V](t: Tree[V], key: Int, value: V, low: Int, high: Int): Boolean = {
    require(isOrdered(t, low, high) && low <= key && key <= high)
    decreases(t)
    t match {
      case Node(l, k, _, r) =>
        val left = key >= k || staysOrdered(l, key, value, low, k)
        val right = key <= k || staysOrdered(r, key, value, k, high)
        left && right && isOrdered(insert(t, key, value), low, high)
      case Leaf() => isOrdered(insert(t, key, value), low, high)
    }
  }.holds

  def max(a: Int, b: Int): Int = {
    if (a < b) b else a
  } ensuring (res => res >= a && res >= b)

  def height[V](t: Tree[V]): Int = {
    decreases(t)
    t match {
      case Node(l, _, _, r) => 1 + max(height(l), height(r))
      case Leaf() => 0
    }
  }

  def mirror[V](t: Tree[V]): Tree[V] = {
    decreases(t)
    t match {
      case Node(l, k, v, r) => Node(mirror(r), k, v, mirror(l))
      case Leaf() => t
    }
  } ensuring (res => height(res) == height(t))

  def three(): Tree[Boolean] = insert(insert(insert(Leaf[Boolean](), 2, true), 1, false), 3, true)
  def threeHigh(): Int = height(three())
  def hasThree(): Boolean = member(three(), 3) && !member(mirror(three()), 3)
}
