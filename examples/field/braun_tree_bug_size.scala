// With a bug, at `// bug`: the size claim has the greater subtree on the right
// Braun trees: insertion keeps them balanced, and the fast size is the size.
// Chris Okasaki, "Three algorithms on Braun trees", Journal of Functional Programming 7 (1997); W. Braun and M. Rem,
// "A logarithmic implementation of flexible arrays", 1983.
import stainless.lang._

object BraunTree {
  sealed abstract class Tree
  case class Node(value: Int, left: Tree, right: Tree) extends Tree
  case class Leaf() extends Tree

  def size(t: Tree): Int = {
    decreases(t)
    t match {
      case Leaf() => 0
      case Node(_, l, r) => size(l) + size(r) + 1
    }
  }

  def isBraun(t: Tree): Boolean = {
    decreases(t)
    t match {
      case Leaf() => true
      case Node(_, l, r) =>
        // bug: the size claim has the greater subtree on the right
        isBraun(l) && isBraun(r) && 0 <= size(r) && size(r) < 1000000 && (size(l) == size(r) || size(l) + 1 == size(r))
    }
  }

  def insert(t: Tree, x: Int): Tree = {
    require(isBraun(t) && size(t) < 1000000)
    decreases(t)
    t match {
      case Leaf() => Node(x, Leaf(), Leaf())
      case Node(v, l, r) => Node(x, insert(r, v), l)
    }
  } ensuring (res => isBraun(res) && size(res) == size(t) + 1)

  // 1 if there are n + 1 elements, 0 if there are n
  def diff(t: Tree, n: Int): Int = {
    require(0 <= n)
    decreases(t)
    t match {
      case Leaf() => 0
      case Node(_, l, r) =>
        if (n == 0) 1
        else if (n % 2 == 1) diff(l, (n - 1) / 2)
        else diff(r, (n - 2) / 2)
    }
  }

  def fastSize(t: Tree): Int = {
    decreases(t)
    t match {
      case Leaf() => 0
      case Node(_, l, r) =>
        val m = fastSize(r)
        1 + 2 * m + diff(l, if (m < 0) 0 else m)
    }
  }

  def diffIsRight(t: Tree, n: Int): Boolean = {
    require(isBraun(t) && 0 <= n && (size(t) == n || size(t) == n + 1))
    decreases(t)
    val part = t match {
      case Leaf() => true
      case Node(_, l, r) =>
        if (n == 0) true
        else if (n % 2 == 1) diffIsRight(l, (n - 1) / 2)
        else diffIsRight(r, (n - 2) / 2)
    }
    part && diff(t, n) == size(t) - n
  }.holds

  def fastSizeIsSize(t: Tree): Boolean = {
    require(isBraun(t))
    decreases(t)
    val part = t match {
      case Leaf() => true
      case Node(_, l, r) => fastSizeIsSize(l) && fastSizeIsSize(r) && diffIsRight(l, size(r))
    }
    part && fastSize(t) == size(t)
  }.holds

  def contains(t: Tree, x: Int): Boolean = {
    decreases(t)
    t match {
      case Leaf() => false
      case Node(v, l, r) => v == x || contains(l, x) || contains(r, x)
    }
  }

  def insertContains(t: Tree, x: Int, y: Int): Boolean = {
    require(isBraun(t) && size(t) < 1000000)
    decreases(t)
    t match {
      case Leaf() => contains(insert(t, x), y) == (contains(t, y) || x == y)
      case Node(v, _, r) =>
        insertContains(r, v, y) && contains(insert(t, x), y) == (contains(t, y) || x == y)
    }
  }.holds
}
