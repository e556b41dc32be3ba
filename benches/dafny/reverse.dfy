// Reversing a list twice gives the list: examples/proofs/reverse.scala in Dafny.

datatype List<A> = Cons(head: A, tail: List<A>) | Nil

// The list with x at its end.
function snoc<A>(l: List<A>, x: A): List<A>
  decreases l
{
  match l
  case Cons(h, t) => Cons(h, snoc(t, x))
  case Nil => Cons(x, Nil)
}

function reverse<A>(l: List<A>): List<A>
  decreases l
{
  match l
  case Cons(h, t) => snoc(reverse(t), h)
  case Nil => l
}

// What stands in front stays in front.
lemma snocBehind<A>(x: A, l: List<A>, y: A)
  ensures snoc(Cons(x, l), y) == Cons(x, snoc(l, y))
{
}

lemma oneReversed<A>(x: A)
  ensures reverse(Cons(x, Nil)) == Cons(x, Nil)
{
}

// What stands at the end comes first.
lemma snocReversed<A>(l: List<A>, x: A)
  ensures reverse(snoc(l, x)) == Cons(x, reverse(l))
  decreases l
{
  match l
  case Cons(h, t) => snocReversed(t, x); snocBehind(x, reverse(t), h);
  case Nil => oneReversed(x);
}

lemma reversedTwice<A>(l: List<A>)
  ensures reverse(reverse(l)) == l
  decreases l
{
  match l
  case Cons(h, t) => reversedTwice(t); snocReversed(reverse(t), h);
  case Nil =>
}
