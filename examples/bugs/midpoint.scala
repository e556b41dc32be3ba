// Bug: the sum of two great numbers wraps.
// pureproof examples/bugs/midpoint.scala
// midpoint: invalid, assertion at 1:9:5, ..
object Midpoints {
  // Where a binary search goes on between low and high.
  def midpoint(low: Int, high: Int): Int = {
    require(0 <= low && low <= high)
    val middle = (low + high) >> 1
    assert(low <= middle)
    middle
  } ensuring (res => low <= res && res <= high)

  def step(low: Int, high: Int, wanted: Int): Int = {
    require(0 <= low && low <= wanted && wanted <= high)
    val middle = midpoint(low, high)
    if (middle < wanted) middle else low
  } ensuring (res => res <= wanted)
}
