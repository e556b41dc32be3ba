// A stand-in for the library of Stainless, beside which a Scala 2.13 compiler takes the other examples.
package stainless

object lang {
  def require(condition: Boolean): Unit = Predef.require(condition)
  def decreases(measure: Any*): Unit = ()
  def assert(condition: Boolean): Unit = Predef.assert(condition)
  implicit class Ensuring[A](result: A) {
    def ensuring(claim: A => Boolean): A = { Predef.assert(claim(result)); result }
  }
  implicit class Holds(result: Boolean) {
    def holds: Boolean = { Predef.assert(result); result }
  }
}
