// Bug: with a negative divisor the measure doesn't go down.
// pureproof examples/bugs/gcd.scala
// gcd: invalid, measure at 1:7:24, ..
object Divisors {
  def gcd(a: Int, b: Int): Int = {
    decreases(b)
    if (b == 0) a else gcd(b, a % b)
  }

  def isDivisor(d: Int, n: Int): Boolean = d != 0 && n % d == 0
}
