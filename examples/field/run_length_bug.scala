// With a bug, at `// bug`: a repeated element isn't counted
// Run lengths: decoding gives back what was encoded, and the code is in its normal form.
// Richard Bird, "Introduction to Functional Programming using Haskell", 1998; in the form of the testcase RunLength
// of the Leon synthesizer (Kneuss, Kuraj, Kuncak, Suter, "Synthesis modulo recursive functions", 2013).
import leon.lang._

object RunLength {
  sealed abstract class List
  case class Cons(head: Int, tail: List) extends List
  case class Nil() extends List

  sealed abstract class Code
  case class Run(times: Int, value: Int, rest: Code) extends Code
  case class Stop() extends Code

  def length(l: List): Int = {
    decreases(l)
    l match {
      case Nil() => 0
      case Cons(_, t) => 1 + length(t)
    }
  }

  def append(a: List, b: List): List = {
    decreases(a)
    a match {
      case Nil() => b
      case Cons(h, t) => Cons(h, append(t, b))
    }
  }

  // n times x, and then the list
  def repeat(n: Int, x: Int, l: List): List = {
    decreases(n)
    if (n <= 0) l else Cons(x, repeat(n - 1, x, l))
  }

  // each run has an element, and neighbours differ, unless the second is full
  def isLegal(c: Code): Boolean = {
    decreases(c)
    c match {
      case Stop() => true
      case Run(n, x, rest) => n > 0 && isLegal(rest) && (rest match {
        case Run(m, y, _) => x != y || m == Int.MaxValue
        case Stop() => true
      })
    }
  }

  def decode(c: Code): List = {
    decreases(c)
    c match {
      case Stop() => Nil()
      case Run(n, x, rest) => repeat(n, x, decode(rest))
    }
  }

  def push(x: Int, c: Code): Code = c match {
    // bug: a repeated element isn't counted
    case Run(n, y, rest) => if (x == y && n < Int.MaxValue) Run(n, y, rest) else Run(1, x, c)
    case Stop() => Run(1, x, Stop())
  }

  def encode(l: List): Code = {
    decreases(l)
    l match {
      case Nil() => Stop()
      case Cons(h, t) => push(h, encode(t))
    }
  } ensuring (res => isLegal(res))

  def pushDecodes(x: Int, c: Code): Boolean = {
    require(isLegal(c))
    decode(push(x, c)) == Cons(x, decode(c))
  }.holds

  def decodeEncode(l: List): Boolean = {
    decreases(l)
    l match {
      case Nil() => decode(encode(l)) == l
      case Cons(h, t) => decodeEncode(t) && pushDecodes(h, encode(t)) && decode(encode(l)) == l
    }
  }.holds

  def repeatLength(n: Int, x: Int, l: List): Boolean = {
    require(0 <= n)
    decreases(n)
    val part = n == 0 || repeatLength(n - 1, x, l)
    part && length(repeat(n, x, l)) == n + length(l)
  }.holds

  // the sum of the lengths of the runs
  def total(c: Code): Int = {
    decreases(c)
    c match {
      case Stop() => 0
      case Run(n, _, rest) => n + total(rest)
    }
  }

  def decodeLength(c: Code): Boolean = {
    require(isLegal(c))
    decreases(c)
    val part = c match {
      case Stop() => true
      case Run(n, x, rest) => decodeLength(rest) && repeatLength(n, x, decode(rest))
    }
    part && length(decode(c)) == total(c)
  }.holds

  def encodeTotal(l: List): Boolean = {
    decreases(l)
    val part = l match {
      case Nil() => true
      case Cons(_, t) => encodeTotal(t)
    }
    part && total(encode(l)) == length(l)
  }.holds
}
