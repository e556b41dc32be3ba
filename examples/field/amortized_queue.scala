// A queue of two lists whose front is at least as long as its rear.
// F. Warren Burton, "An efficient functional implementation of FIFO queues", 1982; Chris Okasaki, "Purely Functional
// Data Structures", 1998; in the form of the testcase AmortizedQueue of the Leon verifier (2011).
import leon.lang._

object AmortizedQueue {
  sealed abstract class List
  case class Cons(head: Int, tail: List) extends List
  case class Nil() extends List

  case class Queue(front: List, rear: List)

  // a is at most as long as b; a count would wrap
  def isShorter(a: List, b: List): Boolean = {
    decreases(a, b)
    a match {
      case Nil() => true
      case Cons(_, xs) => b match {
        case Nil() => false
        case Cons(_, ys) => isShorter(xs, ys)
      }
    }
  }

  def concat(l1: List, l2: List): List = {
    decreases(l1)
    l1 match {
      case Nil() => l2
      case Cons(x, xs) => Cons(x, concat(xs, l2))
    }
  }

  def reverse(l: List): List = {
    decreases(l)
    l match {
      case Nil() => Nil()
      case Cons(x, xs) => concat(reverse(xs), Cons(x, Nil()))
    }
  }

  def asList(queue: Queue): List = concat(queue.front, reverse(queue.rear))

  def isAmortized(queue: Queue): Boolean = isShorter(queue.rear, queue.front)

  def isEmpty(queue: Queue): Boolean = {
    queue.front == Nil() && queue.rear == Nil()
  }

  def amortizedQueue(front: List, rear: List): Queue = {
    if (isShorter(rear, front)) Queue(front, rear)
    else Queue(concat(front, reverse(rear)), Nil())
  } ensuring (res => isAmortized(res))

  def enqueue(queue: Queue, elem: Int): Queue = {
    amortizedQueue(queue.front, Cons(elem, queue.rear))
  } ensuring (res => isAmortized(res) && !isEmpty(res))

  def tail(queue: Queue): Queue = {
    require(isAmortized(queue) && !isEmpty(queue))
    queue.front match {
      case Cons(_, fs) => amortizedQueue(fs, queue.rear)
    }
  } ensuring (res => isAmortized(res))

  def front(queue: Queue): Int = {
    require(isAmortized(queue) && !isEmpty(queue))
    queue.front match {
      case Cons(f, _) => f
    }
  }

  def concatAssoc(a: List, b: List, c: List): Boolean = {
    decreases(a)
    a match {
      case Nil() => concat(concat(a, b), c) == concat(a, concat(b, c))
      case Cons(_, xs) => concatAssoc(xs, b, c) && concat(concat(a, b), c) == concat(a, concat(b, c))
    }
  }.holds

  def concatNil(a: List): Boolean = {
    decreases(a)
    a match {
      case Nil() => concat(a, Nil()) == a
      case Cons(_, xs) => concatNil(xs) && concat(a, Nil()) == a
    }
  }.holds

  def amortizedKeepsList(f: List, r: List): Boolean = {
    concatNil(concat(f, reverse(r))) && asList(amortizedQueue(f, r)) == asList(Queue(f, r))
  }.holds

  // what is put in comes out last
  def enqueueAppends(queue: Queue, elem: Int): Boolean = {
    amortizedKeepsList(queue.front, Cons(elem, queue.rear)) &&
      concatAssoc(queue.front, reverse(queue.rear), Cons(elem, Nil())) &&
      asList(enqueue(queue, elem)) == concat(asList(queue), Cons(elem, Nil()))
  }.holds

  def propFront(queue: Queue): Boolean = {
    require(isAmortized(queue) && !isEmpty(queue))
    asList(queue) match {
      case Nil() => false
      case Cons(x, _) => front(queue) == x
    }
  }.holds

  def propTail(queue: Queue): Boolean = {
    require(isAmortized(queue) && !isEmpty(queue))
    val known = queue.front match {
      case Nil() => true
      case Cons(_, fs) => amortizedKeepsList(fs, queue.rear)
    }
    known && (asList(queue) match {
      case Nil() => false
      case Cons(_, xs) => asList(tail(queue)) == xs
    })
  }.holds

  def enqueueAndFront(queue: Queue, elem: Int): Boolean = {
    if (isEmpty(queue)) front(enqueue(queue, elem)) == elem else true
  }.holds

  def enqueueDequeueThrice(queue: Queue, e1: Int, e2: Int, e3: Int): Boolean = {
    if (isEmpty(queue)) {
      val q1 = enqueue(queue, e1)
      val q2 = enqueue(q1, e2)
      val q3 = enqueue(q2, e3)
      val e1prime = front(q3)
      val q4 = tail(q3)
      val e2prime = front(q4)
      val q5 = tail(q4)
      val e3prime = front(q5)
      e1 == e1prime && e2 == e2prime && e3 == e3prime
    } else true
  }.holds
}
