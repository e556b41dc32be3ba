// What is put into a queue of two lists comes last, and turning it keeps its elements: examples/proofs/queue.scala in
// Dafny. Elements are `int`. No clause differs.

datatype List = Cons(head: int, tail: List) | Nil

// The elements of `front`, and then those of `back` from the last to the first.
datatype Queue = Queue(front: List, back: List)

function append(a: List, b: List): List
  decreases a
{
  match a
  case Cons(h, t) => Cons(h, append(t, b))
  case Nil => b
}

// The elements of l from the last to the first, and then those of done.
function reverseOnto(l: List, done: List): List
  decreases l
{
  match l
  case Cons(h, t) => reverseOnto(t, Cons(h, done))
  case Nil => done
}

function elements(q: Queue): List
{
  append(q.front, reverseOnto(q.back, Nil))
}

function put(q: Queue, x: int): Queue
{
  Queue(q.front, Cons(x, q.back))
}

// The queue with its first element in front, if it has one.
function turned(q: Queue): Queue
{
  match q.front
  case Cons(_, _) => q
  case Nil => Queue(reverseOnto(q.back, Nil), Nil)
}

// What stands in front stays in front.
lemma appendsBehind(h: int, a: List, b: List)
  ensures append(Cons(h, a), b) == Cons(h, append(a, b))
{
}

// Appending to what was reversed onto a list is the same as reversing onto more.
lemma reversesOn(l: List, done: List, more: List)
  ensures append(reverseOnto(l, done), more) == reverseOnto(l, append(done, more))
  decreases l
{
  match l
  case Cons(h, t) =>
    reversesOn(t, Cons(h, done), more);
    appendsBehind(h, done, more);
  case Nil =>
}

lemma isAssociative(a: List, b: List, c: List)
  ensures append(append(a, b), c) == append(a, append(b, c))
  decreases a
{
  match a
  case Cons(_, t) => isAssociative(t, b, c);
  case Nil =>
}

lemma hasUnit(a: List)
  ensures append(a, Nil) == a
  decreases a
{
  match a
  case Cons(_, t) => hasUnit(t);
  case Nil =>
}

// The last of the back is the last of all.
lemma backEnds(l: List, x: int)
  ensures reverseOnto(Cons(x, l), Nil) == append(reverseOnto(l, Nil), Cons(x, Nil))
{
  reversesOn(l, Nil, Cons(x, Nil));
}

lemma putComesLast(q: Queue, x: int)
  ensures elements(put(q, x)) == append(elements(q), Cons(x, Nil))
{
  backEnds(q.back, x);
  isAssociative(q.front, reverseOnto(q.back, Nil), Cons(x, Nil));
}

lemma turnedIsTheSame(q: Queue)
  ensures elements(turned(q)) == elements(q)
{
  hasUnit(reverseOnto(q.back, Nil));
}
