// A list that is sorted by insertion is in order: examples/proofs/sorted.scala in Dafny. Elements are `int`. No clause
// differs.

datatype List<A> = Cons(head: A, tail: List<A>) | Nil

predicate isSorted(l: List<int>)
  decreases l
{
  match l
  case Cons(a, t) => (match t
    case Cons(b, _) => a <= b && isSorted(t)
    case Nil => true)
  case Nil => true
}

// Puts x in its place.
function insert(x: int, l: List<int>): List<int>
  requires isSorted(l)
  ensures isSorted(insert(x, l))
  decreases l
{
  match l
  case Nil => Cons(x, Nil)
  case Cons(h, t) => if x <= h then Cons(x, l) else Cons(h, insert(x, t))
}

function sort(l: List<int>): List<int>
  ensures isSorted(sort(l))
  decreases l
{
  match l
  case Nil => Nil
  case Cons(h, t) => insert(h, sort(t))
}
