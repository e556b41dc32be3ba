object A {
  def or(a: Boolean, b: Boolean): Boolean = { require(a); a || b } ensuring (res => res)
}
