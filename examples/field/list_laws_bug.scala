// With a bug, at `// bug`: one element too few is dropped
// Laws of lists: append, reverse, double, take and drop.
// Richard Bird, "Introduction to Functional Programming using Haskell", 1998, chapters 4 and 6.
import stainless.lang._

object ListLaws {
  sealed abstract class List
  case class Cons(head: Int, tail: List) extends List
  case class Nil() extends List

  def append(a: List, b: List): List = {
    decreases(a)
    a match {
      case Nil() => b
      case Cons(x, xs) => Cons(x, append(xs, b))
    }
  }

  def reverse(l: List): List = {
    decreases(l)
    l match {
      case Nil() => Nil()
      case Cons(x, xs) => append(reverse(xs), Cons(x, Nil()))
    }
  }

  def reverseOnto(l: List, acc: List): List = {
    decreases(l)
    l match {
      case Nil() => acc
      case Cons(x, xs) => reverseOnto(xs, Cons(x, acc))
    }
  }

  def double(l: List): List = {
    decreases(l)
    l match {
      case Nil() => Nil()
      case Cons(x, xs) => Cons(2 * x, double(xs))
    }
  }

  def take(n: Int, l: List): List = {
    decreases(l)
    l match {
      case Nil() => Nil()
      case Cons(x, xs) => if (n <= 0) Nil() else Cons(x, take(n - 1, xs))
    }
  }

  def drop(n: Int, l: List): List = {
    decreases(l)
    l match {
      case Nil() => Nil()
      // bug: one element too few is dropped
      case Cons(_, xs) => if (n <= 1) l else drop(n - 1, xs)
    }
  }

  def appendNil(a: List): Boolean = {
    decreases(a)
    a match {
      case Nil() => append(a, Nil()) == a
      case Cons(_, xs) => appendNil(xs) && append(a, Nil()) == a
    }
  }.holds

  def appendAssoc(a: List, b: List, c: List): Boolean = {
    decreases(a)
    a match {
      case Nil() => append(append(a, b), c) == append(a, append(b, c))
      case Cons(_, xs) => appendAssoc(xs, b, c) && append(append(a, b), c) == append(a, append(b, c))
    }
  }.holds

  def reverseAppend(a: List, b: List): Boolean = {
    decreases(a)
    a match {
      case Nil() => appendNil(reverse(b)) && reverse(append(a, b)) == append(reverse(b), reverse(a))
      case Cons(x, xs) =>
        reverseAppend(xs, b) && appendAssoc(reverse(b), reverse(xs), Cons(x, Nil())) &&
          reverse(append(a, b)) == append(reverse(b), reverse(a))
    }
  }.holds

  def reverseReverse(l: List): Boolean = {
    decreases(l)
    l match {
      case Nil() => reverse(reverse(l)) == l
      case Cons(x, xs) => reverseReverse(xs) && reverseAppend(reverse(xs), Cons(x, Nil())) && reverse(reverse(l)) == l
    }
  }.holds

  def reverseOntoReverses(l: List, acc: List): Boolean = {
    decreases(l)
    val part = l match {
      case Nil() => true
      case Cons(x, xs) => reverseOntoReverses(xs, Cons(x, acc)) && appendAssoc(reverse(xs), Cons(x, Nil()), acc)
    }
    part && reverseOnto(l, acc) == append(reverse(l), acc)
  }.holds

  def doubleAppend(a: List, b: List): Boolean = {
    decreases(a)
    val part = a match {
      case Nil() => true
      case Cons(_, xs) => doubleAppend(xs, b)
    }
    part && double(append(a, b)) == append(double(a), double(b))
  }.holds

  def doubleReverse(l: List): Boolean = {
    decreases(l)
    val part = l match {
      case Nil() => true
      case Cons(x, xs) => doubleReverse(xs) && doubleAppend(reverse(xs), Cons(x, Nil()))
    }
    part && double(reverse(l)) == reverse(double(l))
  }.holds

  def takeDrop(n: Int, l: List): Boolean = {
    decreases(l)
    val part = l match {
      case Nil() => true
      case Cons(_, xs) => takeDrop(n - 1, xs)
    }
    part && append(take(n, l), drop(n, l)) == l
  }.holds

  def takeTake(n: Int, m: Int, l: List): Boolean = {
    decreases(l)
    val part = l match {
      case Nil() => true
      case Cons(_, xs) => n <= 0 || m <= 0 || takeTake(n - 1, m - 1, xs)
    }
    part && take(n, take(m, l)) == take(if (n < m) n else m, l)
  }.holds

  def dropDrop(n: Int, m: Int, l: List): Boolean = {
    require(0 <= n && n < 1000000 && 0 <= m && m < 1000000)
    decreases(l)
    val part = l match {
      case Nil() => true
      case Cons(_, xs) => if (m == 0) true else dropDrop(n, m - 1, xs)
    }
    part && drop(n, drop(m, l)) == drop(n + m, l)
  }.holds
}
