// A leftist heap stays one, has its least number at the root, and has what was put in and not taken out:
// examples/proofs/heap.scala in Dafny. Numbers are `int`, which don't wrap: ranks and counts have no greatest value
// here. No clause differs.

datatype Heap = Node(rank: int, value: int, left: Heap, right: Heap) | Leaf

// How many nodes lie on the way down that keeps to the right.
function rank(h: Heap): int
{
  match h
  case Node(n, _, _, _) => n
  case Leaf => 0
}

// x above two heaps; that of the lower rank goes to the right.
function node(x: int, a: Heap, b: Heap): Heap
{
  if rank(a) >= rank(b) then Node(rank(b) + 1, x, a, b) else Node(rank(a) + 1, x, b, a)
}

function merge(a: Heap, b: Heap): Heap
  decreases a, b
{
  match a
  case Node(_, x, l, r) => (match b
    case Node(_, y, m, s) => if x <= y then node(x, l, merge(r, b)) else node(y, m, merge(a, s))
    case Leaf => a)
  case Leaf => b
}

function single(x: int): Heap
{
  Node(1, x, Leaf, Leaf)
}

function insert(x: int, h: Heap): Heap
{
  merge(single(x), h)
}

function least(h: Heap): int
  requires h != Leaf
{
  match h
  case Node(_, x, _, _) => x
}

function withoutLeast(h: Heap): Heap
  requires h != Leaf
{
  match h
  case Node(_, _, l, r) => merge(l, r)
}

// No number is less than low or than one above it, and the ranks are right, and no greater on the right.
predicate isHeap(h: Heap, low: int)
  decreases h
{
  match h
  case Node(n, x, l, r) => low <= x && n == rank(r) + 1 && rank(r) <= rank(l) && isHeap(l, x) && isHeap(r, x)
  case Leaf => true
}

// How often v is in the heap.
function count(h: Heap, v: int): int
  decreases h
{
  match h
  case Node(_, x, l, r) => (if x == v then 1 else 0) + count(l, v) + count(r, v)
  case Leaf => 0
}

lemma nodeIsHeap(x: int, a: Heap, b: Heap, low: int)
  requires low <= x && isHeap(a, x) && isHeap(b, x)
  ensures isHeap(node(x, a, b), low)
{
}

lemma mergeIsHeap(a: Heap, b: Heap, low: int)
  requires isHeap(a, low) && isHeap(b, low)
  ensures isHeap(merge(a, b), low)
  decreases a, b
{
  match a
  case Node(_, x, l, r) => {
    match b
    case Node(_, y, m, s) =>
      if x <= y {
        mergeIsHeap(r, b, x);
        nodeIsHeap(x, l, merge(r, b), low);
      } else {
        mergeIsHeap(a, s, y);
        nodeIsHeap(y, m, merge(a, s), low);
      }
    case Leaf =>
  }
  case Leaf =>
}

lemma insertIsHeap(x: int, h: Heap, low: int)
  requires isHeap(h, low) && low <= x
  ensures isHeap(insert(x, h), low)
{
  mergeIsHeap(single(x), h, low);
}

lemma restIsHeap(h: Heap, low: int)
  requires h != Leaf && isHeap(h, low)
  ensures isHeap(withoutLeast(h), least(h))
{
  mergeIsHeap(h.left, h.right, least(h));
}

// x above a heap, and above two that are merged.
lemma nodeCounts(x: int, a: Heap, b: Heap, c: Heap, v: int)
  ensures count(node(x, a, merge(b, c)), v) == (if x == v then 1 else 0) + count(a, v) + count(merge(b, c), v)
{
}

lemma mergeCounts(a: Heap, b: Heap, v: int)
  ensures count(merge(a, b), v) == count(a, v) + count(b, v)
  decreases a, b
{
  match a
  case Node(_, x, l, r) => {
    match b
    case Node(_, y, m, s) =>
      if x <= y {
        mergeCounts(r, b, v);
        nodeCounts(x, l, r, b, v);
      } else {
        mergeCounts(a, s, v);
        nodeCounts(y, m, a, s, v);
      }
    case Leaf =>
  }
  case Leaf =>
}

lemma insertCounts(x: int, h: Heap, v: int)
  ensures count(insert(x, h), v) == (if x == v then 1 else 0) + count(h, v)
{
  mergeCounts(single(x), h, v);
}

lemma restCounts(h: Heap, v: int)
  requires h != Leaf
  ensures (if least(h) == v then 1 else 0) + count(withoutLeast(h), v) == count(h, v)
{
  mergeCounts(h.left, h.right, v);
}

// What is in a heap isn't less than its bound.
lemma isAtLeast(h: Heap, v: int, low: int)
  requires isHeap(h, low) && count(h, v) != 0
  ensures low <= v
  decreases h
{
  match h
  case Node(_, x, l, r) =>
    if x != v {
      if count(l, v) != 0 {
        isAtLeast(l, v, x);
      } else {
        isAtLeast(r, v, x);
      }
    }
}

lemma leastIsLeast(h: Heap, v: int, low: int)
  requires isHeap(h, low) && count(h, v) != 0
  ensures h != Leaf && least(h) <= v
{
  isAtLeast(h, v, least(h));
}
