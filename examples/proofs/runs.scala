// Proved: a list is got back from its run lengths, and run lengths are got back from their list.
// pureproof examples/proofs/runs.scala
// 13 valid, 0 invalid, 0 open, 0 depending
import stainless.lang._

object Runs {
  sealed abstract class List
  case class Cons(head: Int, tail: List) extends List
  case class Nil() extends List

  // A run is a number and how often it comes, which a byte can tell.
  sealed abstract class Runs
  case class Run(times: Int, value: Int, rest: Runs) extends Runs
  case class End() extends Runs

  // x, n times, before the list.
  def repeat(n: Int, x: Int, l: List): List = {
    decreases(n)
    if (n <= 0) l else Cons(x, repeat(n - 1, x, l))
  }

  def decode(c: Runs): List = {
    decreases(c)
    c match {
      case Run(n, x, rest) => repeat(n, x, decode(rest))
      case End() => Nil()
    }
  }

  // One number more in front.
  def push(x: Int, c: Runs): Runs = c match {
    case Run(n, y, rest) => if (x == y && n < 255) Run(n + 1, y, rest) else Run(1, x, c)
    case End() => Run(1, x, c)
  }

  def encode(l: List): Runs = {
    decreases(l)
    l match {
      case Cons(h, t) => push(h, encode(t))
      case Nil() => End()
    }
  } ensuring (res => isNormal(res))

  // No run is empty or longer than 255, and none could be part of the next one.
  def isNormal(c: Runs): Boolean = {
    decreases(c)
    c match {
      case Run(n, x, rest) => 1 <= n && n <= 255 && isNormal(rest) && (rest match {
        case Run(m, y, _) => x != y || m == 255
        case End() => true
      })
      case End() => true
    }
  }

  def pushDecodes(x: Int, c: Runs): Boolean = {
    require(isNormal(c))
    decode(push(x, c)) == Cons(x, decode(c))
  }.holds

  def getsBack(l: List): Boolean = {
    decreases(l)
    val rest = l match {
      case Cons(h, t) => getsBack(t) && pushDecodes(h, encode(t))
      case Nil() => true
    }
    rest && decode(encode(l)) == l
  }.holds

  // A number n times before a list is a run before its runs, where these begin with another one or a full one.
  def repeatEncodes(n: Int, x: Int, l: List, c: Runs): Boolean = {
    require(1 <= n && n <= 255 && encode(l) == c && isNormal(Run(n, x, c)))
    decreases(n)
    val rest = n == 1 || repeatEncodes(n - 1, x, l, c)
    rest && encode(repeat(n, x, l)) == Run(n, x, c)
  }.holds

  def runsGetBack(c: Runs): Boolean = {
    require(isNormal(c))
    decreases(c)
    val parts = c match {
      case Run(n, x, rest) => runsGetBack(rest) && repeatEncodes(n, x, decode(rest), rest)
      case End() => true
    }
    parts && encode(decode(c)) == c
  }.holds

  // Different runs come from different lists.
  def sameRuns(c: Runs, d: Runs): Boolean = {
    require(isNormal(c) && isNormal(d) && decode(c) == decode(d))
    runsGetBack(c) && runsGetBack(d) && c == d
  }.holds

  def length(l: List): Int = {
    decreases(l)
    l match {
      case Cons(_, t) => 1 + length(t)
      case Nil() => 0
    }
  }

  // How many numbers the runs have.
  def total(c: Runs): Int = {
    decreases(c)
    c match {
      case Run(n, _, rest) => n + total(rest)
      case End() => 0
    }
  }

  def sameTotal(l: List): Boolean = {
    decreases(l)
    val rest = l match {
      case Cons(_, t) => sameTotal(t)
      case Nil() => true
    }
    rest && total(encode(l)) == length(l)
  }.holds
}
