// With a bug, at `// bug`: a right subtree comes back on the left
// Zippers of binary trees and of lists: moving about keeps the whole.
// Gérard Huet, "The Zipper", Journal of Functional Programming 7 (1997).
import stainless.lang._

object Zipper {
  sealed abstract class Tree
  case class Node(left: Tree, value: Int, right: Tree) extends Tree
  case class Leaf() extends Tree

  // what is around a subtree, from the inside
  sealed abstract class Path
  case class Top() extends Path
  case class WasLeft(up: Path, value: Int, right: Tree) extends Path
  case class WasRight(up: Path, value: Int, left: Tree) extends Path

  case class Location(tree: Tree, path: Path)

  def plug(t: Tree, p: Path): Tree = {
    decreases(p)
    p match {
      case Top() => t
      case WasLeft(up, v, r) => plug(Node(t, v, r), up)
      case WasRight(up, v, l) => plug(Node(l, v, t), up)
    }
  }

  def whole(z: Location): Tree = plug(z.tree, z.path)

  def goLeft(z: Location): Location = z.tree match {
    case Node(l, v, r) => Location(l, WasLeft(z.path, v, r))
    case Leaf() => z
  }

  def goRight(z: Location): Location = z.tree match {
    case Node(l, v, r) => Location(r, WasRight(z.path, v, l))
    case Leaf() => z
  }

  def goUp(z: Location): Location = z.path match {
    case Top() => z
    case WasLeft(up, v, r) => Location(Node(z.tree, v, r), up)
    // bug: a right subtree comes back on the left
    case WasRight(up, v, l) => Location(Node(z.tree, v, l), up)
  }

  def goTop(z: Location): Location = {
    decreases(z.path)
    z.path match {
      case Top() => z
      case _ => goTop(goUp(z))
    }
  } ensuring (res => res.path == Top())

  def replace(z: Location, t: Tree): Location = Location(t, z.path)

  def leftKeepsWhole(z: Location): Boolean = {
    whole(goLeft(z)) == whole(z)
  }.holds

  def rightKeepsWhole(z: Location): Boolean = {
    whole(goRight(z)) == whole(z)
  }.holds

  def upKeepsWhole(z: Location): Boolean = {
    whole(goUp(z)) == whole(z)
  }.holds

  def downAndUp(z: Location): Boolean = {
    require(z.tree != Leaf())
    goUp(goLeft(z)) == z && goUp(goRight(z)) == z
  }.holds

  def topIsWhole(t: Tree, p: Path): Boolean = {
    decreases(p)
    val part = p match {
      case Top() => true
      case WasLeft(up, v, r) => topIsWhole(Node(t, v, r), up)
      case WasRight(up, v, l) => topIsWhole(Node(l, v, t), up)
    }
    part && goTop(Location(t, p)).tree == plug(t, p)
  }.holds

  def replaceTwice(z: Location, t: Tree, u: Tree): Boolean = {
    replace(replace(z, t), u) == replace(z, u) && whole(replace(z, z.tree)) == whole(z)
  }.holds

  // different trees in one place make different wholes
  def plugInjective(t: Tree, u: Tree, p: Path): Boolean = {
    require(t != u)
    decreases(p)
    p match {
      case Top() => plug(t, p) != plug(u, p)
      case WasLeft(up, v, r) => plugInjective(Node(t, v, r), Node(u, v, r), up) && plug(t, p) != plug(u, p)
      case WasRight(up, v, l) => plugInjective(Node(l, v, t), Node(l, v, u), up) && plug(t, p) != plug(u, p)
    }
  }.holds

  sealed abstract class List
  case class Cons(head: Int, tail: List) extends List
  case class Nil() extends List

  // the elements before the cursor, from the last, and those behind it
  case class Cursor(before: List, behind: List)

  def onto(a: List, b: List): List = {
    decreases(a)
    a match {
      case Nil() => b
      case Cons(h, t) => onto(t, Cons(h, b))
    }
  }

  def elements(c: Cursor): List = onto(c.before, c.behind)

  def forward(c: Cursor): Cursor = c.behind match {
    case Cons(h, t) => Cursor(Cons(h, c.before), t)
    case Nil() => c
  }

  def back(c: Cursor): Cursor = c.before match {
    case Cons(h, t) => Cursor(t, Cons(h, c.behind))
    case Nil() => c
  }

  def forwardKeeps(c: Cursor): Boolean = {
    elements(forward(c)) == elements(c)
  }.holds

  def backKeeps(c: Cursor): Boolean = {
    elements(back(c)) == elements(c)
  }.holds
}
