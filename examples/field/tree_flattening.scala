// The flattening of a tree with and without an accumulator, of its mirror image, and its sum.
// Richard Bird and Philip Wadler, "Introduction to Functional Programming", 1988, the chapters on induction and trees.
import stainless.lang._

object TreeFlattening {
  sealed abstract class List
  case class Cons(head: Int, tail: List) extends List
  case class Nil() extends List

  sealed abstract class Tree
  case class Fork(left: Tree, right: Tree) extends Tree
  case class Tip(value: Int) extends Tree

  def append(a: List, b: List): List = {
    decreases(a)
    a match {
      case Nil() => b
      case Cons(x, xs) => Cons(x, append(xs, b))
    }
  }

  def reverse(l: List): List = {
    decreases(l)
    l match {
      case Nil() => Nil()
      case Cons(x, xs) => append(reverse(xs), Cons(x, Nil()))
    }
  }

  def sum(l: List): Int = {
    decreases(l)
    l match {
      case Nil() => 0
      case Cons(x, xs) => x + sum(xs)
    }
  }

  def flatten(t: Tree): List = {
    decreases(t)
    t match {
      case Tip(x) => Cons(x, Nil())
      case Fork(l, r) => append(flatten(l), flatten(r))
    }
  }

  def flattenOnto(t: Tree, acc: List): List = {
    decreases(t)
    t match {
      case Tip(x) => Cons(x, acc)
      case Fork(l, r) => flattenOnto(l, flattenOnto(r, acc))
    }
  }

  def mirror(t: Tree): Tree = {
    decreases(t)
    t match {
      case Tip(x) => Tip(x)
      case Fork(l, r) => Fork(mirror(r), mirror(l))
    }
  }

  def sumTree(t: Tree): Int = {
    decreases(t)
    t match {
      case Tip(x) => x
      case Fork(l, r) => sumTree(l) + sumTree(r)
    }
  }

  def appendNil(a: List): Boolean = {
    decreases(a)
    a match {
      case Nil() => append(a, Nil()) == a
      case Cons(_, xs) => appendNil(xs) && append(a, Nil()) == a
    }
  }.holds

  def appendAssoc(a: List, b: List, c: List): Boolean = {
    decreases(a)
    a match {
      case Nil() => append(append(a, b), c) == append(a, append(b, c))
      case Cons(_, xs) => appendAssoc(xs, b, c) && append(append(a, b), c) == append(a, append(b, c))
    }
  }.holds

  def reverseAppend(a: List, b: List): Boolean = {
    decreases(a)
    a match {
      case Nil() => appendNil(reverse(b)) && reverse(append(a, b)) == append(reverse(b), reverse(a))
      case Cons(x, xs) =>
        reverseAppend(xs, b) && appendAssoc(reverse(b), reverse(xs), Cons(x, Nil())) &&
          reverse(append(a, b)) == append(reverse(b), reverse(a))
    }
  }.holds

  def sumAppend(a: List, b: List): Boolean = {
    decreases(a)
    val part = a match {
      case Nil() => true
      case Cons(_, xs) => sumAppend(xs, b)
    }
    part && sum(append(a, b)) == sum(a) + sum(b)
  }.holds

  def flattenOntoFlattens(t: Tree, acc: List): Boolean = {
    decreases(t)
    t match {
      case Tip(_) => flattenOnto(t, acc) == append(flatten(t), acc)
      case Fork(l, r) =>
        flattenOntoFlattens(r, acc) && flattenOntoFlattens(l, append(flatten(r), acc)) &&
          appendAssoc(flatten(l), flatten(r), acc) && flattenOnto(t, acc) == append(flatten(t), acc)
    }
  }.holds

  def flattenMirror(t: Tree): Boolean = {
    decreases(t)
    t match {
      case Tip(_) => flatten(mirror(t)) == reverse(flatten(t))
      case Fork(l, r) =>
        flattenMirror(l) && flattenMirror(r) && reverseAppend(flatten(l), flatten(r)) &&
          flatten(mirror(t)) == reverse(flatten(t))
    }
  }.holds

  def flattenSum(t: Tree): Boolean = {
    decreases(t)
    val part = t match {
      case Tip(_) => true
      case Fork(l, r) => flattenSum(l) && flattenSum(r) && sumAppend(flatten(l), flatten(r))
    }
    part && sum(flatten(t)) == sumTree(t)
  }.holds

  def mirrorTwice(t: Tree): Boolean = {
    decreases(t)
    t match {
      case Tip(_) => mirror(mirror(t)) == t
      case Fork(l, r) => mirrorTwice(l) && mirrorTwice(r) && mirror(mirror(t)) == t
    }
  }.holds
}
