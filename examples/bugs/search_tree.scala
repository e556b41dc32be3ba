// Bug: greater keys go to the left where they should go to the right.
// pureproof examples/bugs/search_tree.scala
// insert: invalid, postcondition at 1:26:5, ..
object SearchTrees {
  sealed trait Tree
  case class Node(left: Tree, key: Int, right: Tree) extends Tree
  case class Leaf() extends Tree

  def member(t: Tree, key: Int): Boolean = {
    decreases(t)
    t match {
      case Node(l, k, r) => k == key || (if (key < k) member(l, key) else member(r, key))
      case Leaf() => false
    }
  }

  def insert(t: Tree, key: Int): Tree = {
    decreases(t)
    t match {
      case Node(l, k, r) =>
        if (key == k) t
        else if (key < k) Node(insert(l, key), k, r)
        else Node(insert(r, key), k, l)
      case Leaf() => Node(Leaf(), key, Leaf())
    }
  } ensuring (res => member(res, key))
}
