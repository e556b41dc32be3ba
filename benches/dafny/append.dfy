// Appending is associative, and the empty list is its unit: examples/proofs/append.scala in Dafny.

datatype List<A> = Cons(head: A, tail: List<A>) | Nil

function append<A>(a: List<A>, b: List<A>): List<A>
  decreases a
{
  match a
  case Cons(h, t) => Cons(h, append(t, b))
  case Nil => b
}

lemma isAssociative<A>(a: List<A>, b: List<A>, c: List<A>)
  ensures append(append(a, b), c) == append(a, append(b, c))
  decreases a
{
  match a
  case Cons(_, t) => isAssociative(t, b, c);
  case Nil =>
}

lemma hasUnit<A>(a: List<A>)
  ensures append(a, Nil) == a && append(Nil, a) == a
  decreases a
{
  match a
  case Cons(_, t) => hasUnit(t);
  case Nil =>
}
