import stainless.lang._

object Lists {
  sealed abstract class List[A]
  case class Cons[A](head: A, tail: List[A]) extends List[A]
  case class Nil[A]() extends List[A]

  /* The number of elements. Past the greatest Int it begins again at the smallest, which the sums below don't mind. */
  def size[A](l: List[A]): Int = {
    decreases(l)
    l match {
      case Cons(_, t) => 1 + size(t)
      case Nil() => 0
    }
  }

  def head[A](l: List[A]): A = {
    require(l != Nil[A]())
    l match {
      case Cons(h, _) => h
    }
  }

  def append[A](a: List[A], b: List[A]): List[A] = {
    decreases(a)
    a match {
      case Cons(h, t) => Cons(h, append(t, b))
      case Nil() => b
    }
  } ensuring (res => size(res) == size(a) + size(b))

  // The elements of l from the last to the first, and then those of done.
  def reverseOnto[A](l: List[A], done: List[A]): List[A] = {
    decreases(l)
    l match {
      case Cons(h, t) => reverseOnto(t, Cons(h, done))
      case Nil() => done
    }
  } ensuring (res => size(res) == size(l) + size(done))

  def reverse[A](l: List[A]): List[A] = {
    reverseOnto(l, Nil[A]())
  } ensuring (res => size(res) == size(l))

  def contains[A](l: List[A], x: A): Boolean = {
    decreases(l)
    l match {
      case Cons(h, t) => h == x || contains(t, x)
      case Nil() => false
    }
  }

  // What is in one of two lists is in both together, and nothing else.
  def containsAppended[A](a: List[A], b: List[A], x: A): Boolean = {
    decreases(a)
    val here = contains(append(a, b), x) == (contains(a, x) || contains(b, x))
    a match {
      case Cons(_, t) => containsAppended(t, b, x) && here
      case Nil() => here
    }
  }.holds

  def isSorted(l: List[Int]): Boolean = {
    decreases(l)
    l match {
      case Cons(a, t) => t match {
        case Cons(b, _) => a <= b && isSorted(t)
        case Nil() => true
      }
      case Nil() => true
    }
  }

  // Puts x in its place.
  def insert(x: Int, l: List[Int]): List[Int] = {
    require(isSorted(l))
    decreases(l)
    l match {
      case Cons(h, t) if h < x => Cons(h, insert(x, t))
      case _ => Cons(x, l)
    }
  } ensuring (res => isSorted(res) && size(res) == size(l) + 1)

  def sort(l: List[Int]): List[Int] = {
    decreases(l)
    l match {
      case Cons(h, t) => insert(h, sort(t))
      case Nil() => l
    }
  } ensuring (res => isSorted(res) && size(res) == size(l))

  def numbers(): List[Int] = Cons(3, Cons(1, Cons(2, Nil())))
  def sorted(): List[Int] = sort(numbers())
  def reversed(): List[Int] = reverse(sorted())

  // Fails: the empty list has no head.
  def noHead(): Int = head(Nil[Int]())
}
