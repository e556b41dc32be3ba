// Bug: the mean of no numbers divides by zero.
// pureproof examples/bugs/mean.scala
// mean: invalid, division at 1:25:35, l = Nil()
object Means {
  sealed abstract class List
  case class Cons(head: Int, tail: List) extends List
  case class Nil() extends List

  def size(l: List): Int = {
    decreases(l)
    l match {
      case Cons(_, t) => 1 + size(t)
      case Nil() => 0
    }
  }

  def sum(l: List): Int = {
    decreases(l)
    l match {
      case Cons(h, t) => h + sum(t)
      case Nil() => 0
    }
  }

  def mean(l: List): Int = sum(l) / size(l)
}
