// Bug: an element that is in the list already isn't put in again.
// pureproof examples/bugs/insert.scala
// insert: invalid, postcondition at 1:26:5, ..
object Sorting {
  sealed abstract class List
  case class Cons(head: Int, tail: List) extends List
  case class Nil() extends List

  def size(l: List): Int = {
    decreases(l)
    l match {
      case Cons(_, t) => 1 + size(t)
      case Nil() => 0
    }
  }

  def insert(x: Int, l: List): List = {
    decreases(l)
    l match {
      case Cons(h, t) =>
        if (x < h) Cons(x, l)
        else if (x == h) l
        else Cons(h, insert(x, t))
      case Nil() => Cons(x, Nil())
    }
  } ensuring (res => size(res) == size(l) + 1)

  def sort(l: List): List = {
    decreases(l)
    l match {
      case Cons(h, t) => insert(h, sort(t))
      case Nil() => Nil()
    }
  }
}
