// The first n elements of a list and the others, put together again, are the list: examples/proofs/take_drop.scala in
// Dafny. A number is an `int`: `n - 1` doesn't wrap, where it stands in `together`. No clause differs.

datatype List<A> = Cons(head: A, tail: List<A>) | Nil

function append<A>(a: List<A>, b: List<A>): List<A>
  decreases a
{
  match a
  case Cons(h, t) => Cons(h, append(t, b))
  case Nil => b
}

function take<A>(n: int, l: List<A>): List<A>
  decreases l
{
  match l
  case Cons(h, t) => if n > 0 then Cons(h, take(n - 1, t)) else Nil
  case Nil => Nil
}

function drop<A>(n: int, l: List<A>): List<A>
  decreases l
{
  match l
  case Cons(_, t) => if n > 0 then drop(n - 1, t) else l
  case Nil => l
}

lemma together<A>(n: int, l: List<A>)
  ensures append(take(n, l), drop(n, l)) == l
  decreases l
{
  match l
  case Cons(_, t) => together(n - 1, t);
  case Nil =>
}
