object Runs {
  sealed abstract class L
  case class Cons(head: Int, tail: L) extends L
  case class Nil() extends L

  def down(n: Int): Int = {
    require(0 <= n)
    decreases(n)
    if (n == 0) 0 else down(n - 1)
  }
  def deep(): Int = down(99999)
  def one(): Int = 1

  def turned(n: Int, a: Int): Int = {
    decreases(n)
    if (n <= 0) a else turned(n - 1, (a * 31 + n) ^ (a >>> 3))
  }
  def repeated(times: Int, a: Int): Int = {
    decreases(times)
    if (times <= 0) a else repeated(times - 1, turned(50000, a))
  }
  def numbers(): Int = repeated(20, 1)

  def upTo(n: Int): L = {
    require(0 <= n)
    decreases(n)
    if (n == 0) Nil() else Cons(n, upTo(n - 1))
  }
  def size(l: L): Int = {
    decreases(l)
    l match {
      case Nil() => 0
      case Cons(_, tail) => 1 + size(tail)
    }
  }
  def sum(l: L): Int = {
    decreases(l)
    l match {
      case Nil() => 0
      case Cons(head, tail) => head + sum(tail)
    }
  }
  def list(): Int = {
    val l = upTo(99998)
    size(l) + sum(l)
  }
  def printed(): L = upTo(99998)

  def insert(x: Int, l: L): L = {
    decreases(l)
    l match {
      case Nil() => Cons(x, Nil())
      case Cons(head, tail) => if (x <= head) Cons(x, l) else Cons(head, insert(x, tail))
    }
  }
  def sort(l: L): L = {
    decreases(l)
    l match {
      case Nil() => Nil()
      case Cons(head, tail) => insert(head, sort(tail))
    }
  }
  def mixed(n: Int): L = {
    require(0 <= n)
    decreases(n)
    if (n == 0) Nil() else Cons(n * 7919 % 2003, mixed(n - 1))
  }
  def weighed(l: L, place: Int): Int = {
    decreases(l)
    l match {
      case Nil() => 0
      case Cons(head, tail) => head * place + weighed(tail, place + 1)
    }
  }
  def sorted(): Int = weighed(sort(mixed(2000)), 1)

  def fill(n: Int, l: L): L = {
    decreases(n)
    if (n <= 0) l else fill(n - 1, Cons(n, l))
  }
  def first(l: L): Int = l match {
    case Cons(head, _) => head
    case Nil() => 0
  }
  def filled(times: Int, a: Int): Int = {
    decreases(times)
    if (times <= 0) a else filled(times - 1, a + first(fill(50000, Nil())))
  }
  def few(): Int = filled(1, 0)
  def kept(): Int = filled(40, 0)
}
