// Proved: two functions that call each other say what the lowest bit says.
// pureproof examples/proofs/parity.scala
// 3 valid, 0 invalid, 0 open, 0 depending
import stainless.lang._

object Parity {
  def even(x: Int): Boolean = {
    require(0 <= x)
    decreases(x)
    if (x == 0) true else odd(x - 1)
  } ensuring (res => res == ((x & 1) == 0))

  def odd(x: Int): Boolean = {
    require(0 <= x)
    decreases(x)
    if (x == 0) false else even(x - 1)
  } ensuring (res => res == ((x & 1) == 1))

  // The greatest even number up to x.
  def down(x: Int): Int = {
    require(0 <= x)
    if (even(x)) x else x - 1
  } ensuring (res => 0 <= res && x - 1 <= res && even(res))
}
