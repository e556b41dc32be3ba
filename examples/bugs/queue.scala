// Bug: the elements of the back come out in the wrong order.
// pureproof examples/bugs/queue.scala
// enqueueAppends: invalid, postcondition at 1:28:5, ..
object Queues {
  sealed abstract class List
  case class Cons(head: Boolean, tail: List) extends List
  case class Nil() extends List

  // The elements of the front come first; those of the back are kept the other way round.
  case class Queue(front: List, back: List)

  def append(a: List, b: List): List = {
    decreases(a)
    a match {
      case Cons(h, t) => Cons(h, append(t, b))
      case Nil() => b
    }
  }

  // There is no `reverse` here.
  def elements(q: Queue): List = append(q.front, q.back)

  def enqueue(q: Queue, x: Boolean): Queue = Queue(q.front, Cons(x, q.back))

  def enqueueAppends(q: Queue, x: Boolean): Boolean = {
    require(q.front == Nil())
    elements(enqueue(q, x)) == append(elements(q), Cons(x, Nil()))
  }.holds
}
