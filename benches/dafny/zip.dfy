// Two lists of equal length are zipped without a rest, and unzipped again: examples/proofs/zip.scala in Dafny.
// Elements of the first list are `int`. No clause differs.

datatype List<A> = Cons(head: A, tail: List<A>) | Nil

datatype Pair<A, B> = Pair(first: A, second: B)

predicate areAlike<A, B>(a: List<A>, b: List<B>)
  decreases a
{
  match a
  case Cons(_, s) => (match b
    case Cons(_, t) => areAlike(s, t)
    case Nil => false)
  case Nil => (match b
    case Cons(_, _) => false
    case Nil => true)
}

function zip(a: List<int>, b: List<bool>): List<Pair<int, bool>>
  requires areAlike(a, b)
  ensures firsts(zip(a, b)) == a && seconds(zip(a, b)) == b
  decreases a
{
  match a
  case Cons(x, s) => (match b
    case Cons(y, t) => Cons(Pair(x, y), zip(s, t)))
  case Nil => Nil
}

function firsts(l: List<Pair<int, bool>>): List<int>
  decreases l
{
  match l
  case Cons(p, t) => Cons(p.first, firsts(t))
  case Nil => Nil
}

function seconds(l: List<Pair<int, bool>>): List<bool>
  decreases l
{
  match l
  case Cons(p, t) => Cons(p.second, seconds(t))
  case Nil => Nil
}
