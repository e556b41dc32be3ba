// Bug: `top` of an empty stack has no case.
// pureproof examples/bugs/stack.scala
// top: invalid, match at 1:20:44, s = Empty()
object Stacks {
  sealed trait Stack
  case class Push(top: Int, rest: Stack) extends Stack
  case class Empty() extends Stack

  def isEmpty(s: Stack): Boolean = s == Empty()

  def pop(s: Stack): Stack = {
    require(!isEmpty(s))
    s match {
      case Push(_, rest) => rest
      case Empty() => s
    }
  }

  // There is no `require(!isEmpty(s))` here.
  def top(s: Stack): Int = pop(Push(0, s)) match {
    case Push(top, _) => top
  }

  def swap(s: Stack): Stack = {
    require(!isEmpty(s) && !isEmpty(pop(s)))
    Push(top(pop(s)), Push(top(s), pop(pop(s))))
  } ensuring (res => pop(pop(res)) == pop(pop(s)))
}
