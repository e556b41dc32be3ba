// What is put into a search tree is found, what is deleted isn't, all else is as before, and order stays:
// examples/proofs/deletion.scala in Dafny. Keys are `int`. No clause differs.

datatype Tree = Node(left: Tree, key: int, right: Tree) | Leaf

predicate contains(t: Tree, x: int)
  decreases t
{
  match t
  case Node(l, k, r) => if x < k then contains(l, x) else if x > k then contains(r, x) else true
  case Leaf => false
}

// All keys are above low and below high, and the tree is in order.
predicate within(t: Tree, low: int, high: int)
  decreases t
{
  match t
  case Node(l, k, r) => low < k && k < high && within(l, low, k) && within(r, k, high)
  case Leaf => true
}

function insert(t: Tree, x: int): Tree
  decreases t
{
  match t
  case Node(l, k, r) =>
    if x < k then Node(insert(l, x), k, r)
    else if x > k then Node(l, k, insert(r, x))
    else t
  case Leaf => Node(Leaf, x, Leaf)
}

function least(t: Tree): int
  requires t != Leaf
  decreases t
{
  match t
  case Node(l, k, _) => if l == Leaf then k else least(l)
}

function withoutLeast(t: Tree): Tree
  requires t != Leaf
  decreases t
{
  match t
  case Node(l, k, r) => if l == Leaf then r else Node(withoutLeast(l), k, r)
}

// The least key of the right subtree takes the place of the key.
function delete(t: Tree, x: int): Tree
  decreases t
{
  match t
  case Node(l, k, r) =>
    if x < k then Node(delete(l, x), k, r)
    else if x > k then Node(l, k, delete(r, x))
    else if r == Leaf then l
    else Node(l, least(r), withoutLeast(r))
  case Leaf => t
}

lemma insertFinds(t: Tree, x: int, y: int)
  ensures contains(insert(t, x), y) == (x == y || contains(t, y))
  decreases t
{
  match t
  case Node(l, _, r) => insertFinds(l, x, y); insertFinds(r, x, y);
  case Leaf =>
}

lemma insertKeepsOrder(t: Tree, x: int, low: int, high: int)
  requires within(t, low, high) && low < x && x < high
  ensures within(insert(t, x), low, high)
  decreases t
{
  match t
  case Node(l, k, r) =>
    if x < k {
      insertKeepsOrder(l, x, low, k);
    } else if x != k {
      insertKeepsOrder(r, x, k, high);
    }
  case Leaf =>
}

// What is within bounds is within wider ones.
lemma widens(t: Tree, low: int, high: int, lower: int, higher: int)
  requires within(t, low, high) && lower <= low && high <= higher
  ensures within(t, lower, higher)
  decreases t
{
  match t
  case Node(l, k, r) => widens(l, low, k, lower, k); widens(r, k, high, k, higher);
  case Leaf =>
}

lemma notOutside(t: Tree, x: int, low: int, high: int)
  requires within(t, low, high) && (x <= low || high <= x)
  ensures !contains(t, x)
  decreases t
{
  match t
  case Node(l, k, r) => notOutside(l, x, low, k); notOutside(r, x, k, high);
  case Leaf =>
}

// The least key is below all others, which are what is left without it.
lemma leastGoes(t: Tree, y: int, low: int, high: int)
  requires t != Leaf && within(t, low, high)
  ensures low < least(t) && least(t) < high && within(withoutLeast(t), least(t), high)
  ensures contains(t, y) == (y == least(t) || contains(withoutLeast(t), y))
  decreases t
{
  match t
  case Node(l, k, r) =>
    if l != Leaf {
      leastGoes(l, y, low, k);
    }
    if y <= k {
      notOutside(r, y, k, high);
    }
}

lemma deleteKeepsOrder(t: Tree, x: int, low: int, high: int)
  requires within(t, low, high)
  ensures within(delete(t, x), low, high)
  decreases t
{
  match t
  case Node(l, k, r) =>
    if x < k {
      deleteKeepsOrder(l, x, low, k);
    } else if x > k {
      deleteKeepsOrder(r, x, k, high);
    } else if r == Leaf {
      widens(l, low, k, low, high);
    } else {
      leastGoes(r, x, k, high);
      widens(l, low, k, low, least(r));
    }
  case Leaf =>
}

lemma deleteFinds(t: Tree, x: int, y: int, low: int, high: int)
  requires within(t, low, high)
  ensures contains(delete(t, x), y) == (x != y && contains(t, y))
  decreases t
{
  match t
  case Node(l, k, r) =>
    if x < k {
      deleteFinds(l, x, y, low, k);
    } else if x > k {
      deleteFinds(r, x, y, k, high);
    } else {
      if y >= k {
        notOutside(l, y, low, k);
      }
      if r != Leaf {
        leastGoes(r, y, k, high);
        if y <= least(r) {
          notOutside(withoutLeast(r), y, least(r), high);
        }
      }
    }
  case Leaf =>
}
