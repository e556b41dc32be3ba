// Bug: `>>` keeps the sign where `>>>` would fill with zeros.
// pureproof examples/bugs/rotate.scala
// backAndForth: invalid, postcondition at 1:18:5, ..
object Rotations {
  def left(x: Int, n: Int): Int = {
    require(0 <= n && n <= 31)
    if (n == 0) x else (x << n) | (x >> (32 - n))
  }

  def right(x: Int, n: Int): Int = {
    require(0 <= n && n <= 31)
    if (n == 0) x else (x >>> n) | (x << (32 - n))
  }

  def backAndForth(x: Int, n: Int): Boolean = {
    require(0 <= n && n <= 31)
    right(left(x, n), n) == x
  }.holds

  // The other way round the sign is shifted out again.
  def byteOf(x: Int, n: Int): Int = {
    require(0 <= n && n <= 3)
    (x >> (8 * n)) & 0xFF
  } ensuring (res => 0 <= res && res <= 255)
}
