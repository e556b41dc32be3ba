// Proved: the mirror image of the mirror image of a tree is the tree, and it has as many nodes.
// pureproof examples/proofs/mirror.scala
// 3 valid, 0 invalid, 0 open, 0 depending
import stainless.lang._

object Mirror {
  sealed abstract class Tree
  case class Node(left: Tree, value: Int, right: Tree) extends Tree
  case class Leaf() extends Tree

  def size(t: Tree): Int = {
    decreases(t)
    t match {
      case Node(l, _, r) => size(l) + 1 + size(r)
      case Leaf() => 0
    }
  }

  def mirror(t: Tree): Tree = {
    decreases(t)
    t match {
      case Node(l, x, r) => Node(mirror(r), x, mirror(l))
      case Leaf() => t
    }
  } ensuring (res => size(res) == size(t))

  def mirroredTwice(t: Tree): Boolean = {
    decreases(t)
    val parts = t match {
      case Node(l, _, r) => mirroredTwice(l) && mirroredTwice(r)
      case Leaf() => true
    }
    parts && mirror(mirror(t)) == t
  }.holds
}
