// Red-black trees: insertion keeps the colours, the black height and the elements.
// Chris Okasaki, "Red-black trees in a functional setting", Journal of Functional Programming 9 (1999);
// the form is that of the testcase RedBlackTree of the Leon verifier (Suter, Köksal, Kuncak, "Satisfiability modulo
// recursive programs", 2011).
import leon.lang._

object RedBlackTree {
  sealed abstract class Color
  case class Red() extends Color
  case class Black() extends Color

  sealed abstract class Tree
  case class Empty() extends Tree
  case class Node(color: Color, left: Tree, value: Int, right: Tree) extends Tree

  def contains(t: Tree, x: Int): Boolean = {
    decreases(t)
    t match {
      case Empty() => false
      case Node(_, l, v, r) => contains(l, x) || v == x || contains(r, x)
    }
  }

  def isBlack(t: Tree): Boolean = t match {
    case Empty() => true
    case Node(Black(), _, _, _) => true
    case _ => false
  }

  def redNodesHaveBlackChildren(t: Tree): Boolean = {
    decreases(t)
    t match {
      case Empty() => true
      case Node(Black(), l, _, r) => redNodesHaveBlackChildren(l) && redNodesHaveBlackChildren(r)
      case Node(Red(), l, _, r) =>
        isBlack(l) && isBlack(r) && redNodesHaveBlackChildren(l) && redNodesHaveBlackChildren(r)
    }
  }

  def redDescHaveBlackChildren(t: Tree): Boolean = t match {
    case Empty() => true
    case Node(_, l, _, r) => redNodesHaveBlackChildren(l) && redNodesHaveBlackChildren(r)
  }

  def blackHeight(t: Tree): Int = {
    decreases(t)
    t match {
      case Empty() => 1
      case Node(Black(), l, _, _) => blackHeight(l) + 1
      case Node(Red(), l, _, _) => blackHeight(l)
    }
  }

  def blackBalanced(t: Tree): Boolean = {
    decreases(t)
    t match {
      case Empty() => true
      case Node(_, l, _, r) => blackBalanced(l) && blackBalanced(r) && blackHeight(l) == blackHeight(r)
    }
  }

  def balance(c: Color, a: Tree, x: Int, b: Tree): Tree = {
    Node(c, a, x, b) match {
      case Node(Black(), Node(Red(), Node(Red(), t1, xV, t2), yV, t3), zV, t4) =>
        Node(Red(), Node(Black(), t1, xV, t2), yV, Node(Black(), t3, zV, t4))
      case Node(Black(), Node(Red(), t1, xV, Node(Red(), t2, yV, t3)), zV, t4) =>
        Node(Red(), Node(Black(), t1, xV, t2), yV, Node(Black(), t3, zV, t4))
      case Node(Black(), t1, xV, Node(Red(), Node(Red(), t2, yV, t3), zV, t4)) =>
        Node(Red(), Node(Black(), t1, xV, t2), yV, Node(Black(), t3, zV, t4))
      case Node(Black(), t1, xV, Node(Red(), t2, yV, Node(Red(), t3, zV, t4))) =>
        Node(Red(), Node(Black(), t1, xV, t2), yV, Node(Black(), t3, zV, t4))
      case Node(d, t1, xV, t2) => Node(d, t1, xV, t2)
    }
  }

  def balanceKeepsElements(c: Color, a: Tree, x: Int, b: Tree, y: Int): Boolean = {
    contains(balance(c, a, x, b), y) == contains(Node(c, a, x, b), y)
  }.holds

  def ins(x: Int, t: Tree): Tree = {
    require(redNodesHaveBlackChildren(t) && blackBalanced(t))
    decreases(t)
    t match {
      case Empty() => Node(Red(), Empty(), x, Empty())
      case Node(c, a, y, b) =>
        if (x < y) balance(c, ins(x, a), y, b)
        else if (x == y) Node(c, a, y, b)
        else balance(c, a, y, ins(x, b))
    }
  } ensuring (res => redDescHaveBlackChildren(res) && blackBalanced(res) && blackHeight(res) == blackHeight(t))

  def makeBlack(t: Tree): Tree = {
    require(redDescHaveBlackChildren(t) && blackBalanced(t))
    t match {
      case Node(Red(), l, v, r) => Node(Black(), l, v, r)
      case _ => t
    }
  } ensuring (res => redNodesHaveBlackChildren(res) && blackBalanced(res))

  def add(x: Int, t: Tree): Tree = {
    require(redNodesHaveBlackChildren(t) && blackBalanced(t))
    makeBlack(ins(x, t))
  } ensuring (res => redNodesHaveBlackChildren(res) && blackBalanced(res))

  def insAddsElement(x: Int, t: Tree, y: Int): Boolean = {
    require(redNodesHaveBlackChildren(t) && blackBalanced(t))
    decreases(t)
    val part = t match {
      case Empty() => true
      case Node(c, a, z, b) =>
        if (x < z) insAddsElement(x, a, y) && balanceKeepsElements(c, ins(x, a), z, b, y)
        else if (x == z) true
        else insAddsElement(x, b, y) && balanceKeepsElements(c, a, z, ins(x, b), y)
    }
    part && contains(ins(x, t), y) == (contains(t, y) || x == y)
  }.holds

  def addAddsElement(x: Int, t: Tree, y: Int): Boolean = {
    require(redNodesHaveBlackChildren(t) && blackBalanced(t))
    insAddsElement(x, t, y) && contains(add(x, t), y) == (contains(t, y) || x == y)
  }.holds
}
