// Proved: what is put into a queue of two lists comes last, and turning it keeps its elements.
// pureproof examples/proofs/queue.scala
// 12 valid, 0 invalid, 0 open, 0 depending
import stainless.lang._

object Queue {
  sealed abstract class List
  case class Cons(head: Int, tail: List) extends List
  case class Nil() extends List

  // The elements of `front`, and then those of `back` from the last to the first.
  case class Queue(front: List, back: List)

  def append(a: List, b: List): List = {
    decreases(a)
    a match {
      case Cons(h, t) => Cons(h, append(t, b))
      case Nil() => b
    }
  }

  // The elements of l from the last to the first, and then those of done.
  def reverseOnto(l: List, done: List): List = {
    decreases(l)
    l match {
      case Cons(h, t) => reverseOnto(t, Cons(h, done))
      case Nil() => done
    }
  }

  def elements(q: Queue): List = append(q.front, reverseOnto(q.back, Nil()))

  def put(q: Queue, x: Int): Queue = Queue(q.front, Cons(x, q.back))

  // The queue with its first element in front, if it has one.
  def turned(q: Queue): Queue = q.front match {
    case Cons(_, _) => q
    case Nil() => Queue(reverseOnto(q.back, Nil()), Nil())
  }

  // What stands in front stays in front.
  def appendsBehind(h: Int, a: List, b: List): Boolean = {
    append(Cons(h, a), b) == Cons(h, append(a, b))
  }.holds

  // Appending to what was reversed onto a list is the same as reversing onto more.
  def reversesOn(l: List, done: List, more: List): Boolean = {
    decreases(l)
    val rest = l match {
      case Cons(h, t) => reversesOn(t, Cons(h, done), more) && appendsBehind(h, done, more)
      case Nil() => true
    }
    rest && append(reverseOnto(l, done), more) == reverseOnto(l, append(done, more))
  }.holds

  def isAssociative(a: List, b: List, c: List): Boolean = {
    decreases(a)
    val rest = a match {
      case Cons(_, t) => isAssociative(t, b, c)
      case Nil() => true
    }
    rest && append(append(a, b), c) == append(a, append(b, c))
  }.holds

  def hasUnit(a: List): Boolean = {
    decreases(a)
    val rest = a match {
      case Cons(_, t) => hasUnit(t)
      case Nil() => true
    }
    rest && append(a, Nil()) == a
  }.holds

  // The last of the back is the last of all.
  def backEnds(l: List, x: Int): Boolean = {
    val last = Cons(x, Nil())
    reversesOn(l, Nil(), last) && append(Nil(), last) == last &&
      reverseOnto(Cons(x, l), Nil()) == append(reverseOnto(l, Nil()), last)
  }.holds

  def putComesLast(q: Queue, x: Int): Boolean = {
    val last = Cons(x, Nil())
    backEnds(q.back, x) && isAssociative(q.front, reverseOnto(q.back, Nil()), last) &&
      elements(put(q, x)) == append(elements(q), last)
  }.holds

  def turnedIsTheSame(q: Queue): Boolean = {
    val l = reverseOnto(q.back, Nil())
    hasUnit(l) && elements(turned(q)) == elements(q)
  }.holds
}
