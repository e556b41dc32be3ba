object Length {
  sealed abstract class List
  case class Cons(head: Int, tail: List) extends List
  case class Nil() extends List

  def length(l: List): Int = {
    decreases(l)
    l match {
      case Cons(_, t) => 1 + length(t)
      case Nil() => 0
    }
  } ensuring (r => r >= 0)
}
