// What is put into a search tree is found, nothing else comes in or goes, and it stays in order:
// examples/proofs/search_tree.scala in Dafny. Keys are `int`. No clause differs.

datatype Tree = Node(left: Tree, key: int, right: Tree) | Leaf

predicate contains(t: Tree, x: int)
  decreases t
{
  match t
  case Node(l, k, r) => if x < k then contains(l, x) else x == k || contains(r, x)
  case Leaf => false
}

function insert(t: Tree, x: int): Tree
  ensures contains(insert(t, x), x)
  decreases t
{
  match t
  case Node(l, k, r) =>
    if x < k then Node(insert(l, x), k, r)
    else if x == k then t
    else Node(l, k, insert(r, x))
  case Leaf => Node(Leaf, x, Leaf)
}

lemma keepsOthers(t: Tree, x: int, y: int)
  requires x != y
  ensures contains(insert(t, x), y) == contains(t, y)
  decreases t
{
  match t
  case Node(l, _, r) => keepsOthers(l, x, y); keepsOthers(r, x, y);
  case Leaf =>
}

// All keys are at least low and at most high.
predicate within(t: Tree, low: int, high: int)
  decreases t
{
  match t
  case Node(l, k, r) => low <= k && k <= high && within(l, low, k) && within(r, k, high)
  case Leaf => true
}

lemma staysInOrder(t: Tree, x: int, low: int, high: int)
  requires within(t, low, high) && low <= x && x <= high
  ensures within(insert(t, x), low, high)
  decreases t
{
  match t
  case Node(l, k, r) =>
    if x < k {
      staysInOrder(l, x, low, k);
    } else if x != k {
      staysInOrder(r, x, k, high);
    }
  case Leaf =>
}
