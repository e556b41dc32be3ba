// The mirror image of the mirror image of a tree is the tree, and it has as many nodes: examples/proofs/mirror.scala in
// Dafny. Numbers are `int`, which don't wrap. No clause differs.

datatype Tree = Node(left: Tree, value: int, right: Tree) | Leaf

function size(t: Tree): int
  decreases t
{
  match t
  case Node(l, _, r) => size(l) + 1 + size(r)
  case Leaf => 0
}

function mirror(t: Tree): Tree
  ensures size(mirror(t)) == size(t)
  decreases t
{
  match t
  case Node(l, x, r) => Node(mirror(r), x, mirror(l))
  case Leaf => t
}

lemma mirroredTwice(t: Tree)
  ensures mirror(mirror(t)) == t
  decreases t
{
  match t
  case Node(l, _, r) => mirroredTwice(l); mirroredTwice(r);
  case Leaf =>
}
