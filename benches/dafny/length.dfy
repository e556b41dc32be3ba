// The length of two lists together is the sum of their lengths, and a reversed list has the length of the list:
// examples/proofs/length.scala in Dafny. A length is an `int`, which doesn't wrap. No clause differs.

datatype List<A> = Cons(head: A, tail: List<A>) | Nil

function length<A>(l: List<A>): int
  decreases l
{
  match l
  case Cons(_, t) => 1 + length(t)
  case Nil => 0
}

function append<A>(a: List<A>, b: List<A>): List<A>
  ensures length(append(a, b)) == length(a) + length(b)
  decreases a
{
  match a
  case Cons(h, t) => Cons(h, append(t, b))
  case Nil => b
}

// The elements of l from the last to the first, and then those of done.
function reverseOnto<A>(l: List<A>, done: List<A>): List<A>
  ensures length(reverseOnto(l, done)) == length(l) + length(done)
  decreases l
{
  match l
  case Cons(h, t) =>
    assert length(Cons(h, done)) == 1 + length(done);
    reverseOnto(t, Cons(h, done))
  case Nil => done
}

function reverse<A>(l: List<A>): List<A>
  ensures length(reverse(l)) == length(l)
{
  reverseOnto(l, Nil)
}
