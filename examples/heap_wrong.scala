object Heap {
  // In a heap that is kept in an array: where the parent of the node at i stands.
  def parent(i: Int): Int = {
    require(0 <= i)
    (i - 1) >> 1
  } ensuring (res => 0 <= res && res < i)

  // Where its left child stands.
  def left(i: Int): Int = {
    require(0 <= i && i < 1000000)
    2 * i + 1
  } ensuring (res => parent(res) == i)
}
