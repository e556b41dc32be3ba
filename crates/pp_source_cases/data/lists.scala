import stainless.lang._
import stainless.annotation._

object Lists {
  sealed trait List[T]
  case class Cons[T](head: T, tail: List[T]) extends List[T]
  case class Nil[T]() extends List[T]

  // how many elements the list has
  def size[T](l: List[T]): Int = {
    decreases(l)
    l match {
      case Cons(_, t) => 1 + size(t)
      case Nil() => 0
    }
  } ensuring (_ >= 0)

  def append[T](a: List[T], b: List[T]): List[T] = {
    decreases(a)
    a match {
      case Cons(h, t) => Cons(h, append(t, b))
      case Nil() => b
    }
  } ensuring { res =>
    size(res) == size(a) + size(b) && (b != Nil[T]() || res == a)
  }

  /* the elements from the last to the first, before those that are done */
  def reversed[T](l: List[T], done: List[T]): List[T] = {
    require(size(l) < Int.MaxValue - size(done))
    decreases(size(l), 0)
    if (l == Nil[T]()) done
    else {
      val empty: List[T] = Nil[T]()
      assert(l != empty)
      l match {
        case whole @ Cons(h, t) if whole == l => reversed(t, Cons(h, done))
        case _ => done
      }
    }
  }.ensuring(res => size(res) == size(l) + size(done))

  @induct
  def appendsNothing[T](l: List[T]): Boolean = {
    append(l, Nil[T]()) == l
  }.holds
}
