// Proved: two lists of equal length are zipped without a rest, and unzipped again.
// pureproof examples/proofs/zip.scala
// 4 valid, 0 invalid, 0 open, 0 depending
import stainless.lang._

object Zip {
  sealed abstract class List[A]
  case class Cons[A](head: A, tail: List[A]) extends List[A]
  case class Nil[A]() extends List[A]

  case class Pair[A, B](first: A, second: B)

  def areAlike[A, B](a: List[A], b: List[B]): Boolean = {
    decreases(a)
    a match {
      case Cons(_, s) => b match {
        case Cons(_, t) => areAlike(s, t)
        case Nil() => false
      }
      case Nil() => b match {
        case Cons(_, _) => false
        case Nil() => true
      }
    }
  }

  def zip(a: List[Int], b: List[Boolean]): List[Pair[Int, Boolean]] = {
    require(areAlike(a, b))
    decreases(a)
    a match {
      case Cons(x, s) => b match {
        case Cons(y, t) => Cons(Pair(x, y), zip(s, t))
      }
      case Nil() => Nil()
    }
  } ensuring (res => firsts(res) == a && seconds(res) == b)

  def firsts(l: List[Pair[Int, Boolean]]): List[Int] = {
    decreases(l)
    l match {
      case Cons(p, t) => Cons(p.first, firsts(t))
      case Nil() => Nil()
    }
  }

  def seconds(l: List[Pair[Int, Boolean]]): List[Boolean] = {
    decreases(l)
    l match {
      case Cons(p, t) => Cons(p.second, seconds(t))
      case Nil() => Nil()
    }
  }
}
