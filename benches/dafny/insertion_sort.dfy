// Insertion sort gives a sorted list that has each number as often as the list: examples/proofs/insertion_sort.scala in
// Dafny. Numbers are `int`, which don't wrap: `count` has no greatest value here. No clause differs.

datatype List = Cons(head: int, tail: List) | Nil

predicate isSorted(l: List)
  decreases l
{
  match l
  case Cons(a, t) => (match t
    case Cons(b, _) => a <= b && isSorted(t)
    case Nil => true)
  case Nil => true
}

// How often x stands in the list.
function count(x: int, l: List): int
  decreases l
{
  match l
  case Cons(h, t) => if h == x then 1 + count(x, t) else count(x, t)
  case Nil => 0
}

// Puts x in its place.
function insert(x: int, l: List): List
  requires isSorted(l)
  ensures isSorted(insert(x, l))
  decreases l
{
  match l
  case Cons(h, t) => if x <= h then Cons(x, l) else Cons(h, insert(x, t))
  case Nil => Cons(x, Nil)
}

function sort(l: List): List
  ensures isSorted(sort(l))
  decreases l
{
  match l
  case Cons(h, t) => insert(h, sort(t))
  case Nil => Nil
}

// After x came in, it stands there once more, and any other number as often as before.
lemma insertCounts(x: int, l: List, y: int)
  requires isSorted(l)
  ensures count(y, insert(x, l)) == count(y, l) + (if x == y then 1 else 0)
  decreases l
{
  match l
  case Cons(_, t) => insertCounts(x, t, y);
  case Nil =>
}

lemma sortCounts(l: List, y: int)
  ensures count(y, sort(l)) == count(y, l)
  decreases l
{
  match l
  case Cons(h, t) => sortCounts(t, y); insertCounts(h, sort(t), y);
  case Nil =>
}
