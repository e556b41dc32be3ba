import stainless.lang._

object Arithmetic {
  // The one Int without an absolute value is the smallest: its negation is itself.
  def abs(x: Int): Int = {
    require(x != Int.MinValue)
    if (x < 0) -x else x
  } ensuring (res => res >= 0 && (res == x || res == -x))

  def max(a: Int, b: Int): Int = {
    if (a < b) b else a
  } ensuring (res => res >= a && res >= b && (res == a || res == b))

  def min(a: Int, b: Int): Int = {
    if (a < b) a else b
  } ensuring (res => res <= a && res <= b && (res == a || res == b))

  def clamp(x: Int, low: Int, high: Int): Int = {
    require(low <= high)
    max(low, min(x, high))
  } ensuring (res => low <= res && res <= high)

  def gcd(a: Int, b: Int): Int = {
    require(0 <= a && 0 <= b)
    decreases(b)
    if (b == 0) a else gcd(b, a % b)
  } ensuring (_ >= 0)

  // Wraps where the power is no Int.
  def power(x: Int, n: Int): Int = {
    require(0 <= n)
    decreases(n)
    if (n == 0) 1
    else {
      val half = power(x, n / 2)
      if (n % 2 == 0) half * half else half * half * x
    }
  }

  def average(sum: Int, count: Int): Int = {
    require(0 <= sum)
    require(0 < count)
    sum / count
  } ensuring (res => 0 <= res && res <= sum)

  // The remainder that is never negative.
  def modulo(a: Int, b: Int): Int = {
    require(0 < b)
    val r = a % b
    val res = if (r < 0) r + b else r
    assert(0 <= res)
    res
  } ensuring (res => res < b)

  def edge(): Int = Int.MinValue / -1 + -7 % 3
  def shifts(): Int = (1 << 33) + (-8 >> 1) + (-1 >>> 31)
  def common(): Int = gcd(1071, 462)
  def wrapped(): Int = power(3, 20)

  // Fails: there is no average of nothing.
  def ofNothing(): Int = average(7, 0)
}
