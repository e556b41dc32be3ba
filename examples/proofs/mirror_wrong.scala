// Not proved: the value of a node is lost.
// pureproof examples/proofs/mirror_wrong.scala
// 2 valid, 1 invalid, 0 open, 0 depending
import stainless.lang._

object Mirror {
  sealed abstract class Tree
  case class Node(left: Tree, value: Int, right: Tree) extends Tree
  case class Leaf() extends Tree

  def size(t: Tree): Int = {
    decreases(t)
    t match {
      case Node(l, _, r) => size(l) + 1 + size(r)
      case Leaf() => 0
    }
  }

  def mirror(t: Tree): Tree = {
    decreases(t)
    t match {
      case Node(l, x, r) => Node(mirror(r), 0, mirror(l))
      case Leaf() => t
    }
  } ensuring (res => size(res) == size(t))

  def mirroredTwice(t: Tree): Boolean = {
    decreases(t)
    val parts = t match {
      case Node(l, _, r) => mirroredTwice(l) && mirroredTwice(r)
      case Leaf() => true
    }
    parts && mirror(mirror(t)) == t
  }.holds
}
