// Binomial heaps: insertion and merging keep the order and the elements, insertion keeps the ranks ascending.
// Jean Vuillemin, "A data structure for manipulating priority queues", 1978; Chris Okasaki, "Purely Functional Data
// Structures", 1998. A forest is a list whose items hold forests.
import stainless.lang._

object BinomialHeap {
  sealed abstract class Forest
  case class Trees(rank: Int, root: Int, children: Forest, others: Forest) extends Forest
  case class NoTrees() extends Forest

  case class Tree(rank: Int, root: Int, children: Forest)

  def count(f: Forest, y: Int): Int = {
    decreases(f)
    f match {
      case NoTrees() => 0
      case Trees(_, x, c, o) => (if (x == y) 1 else 0) + count(c, y) + count(o, y)
    }
  }

  def countTree(t: Tree, y: Int): Int = (if (t.root == y) 1 else 0) + count(t.children, y)

  def rootsAtLeast(f: Forest, n: Int): Boolean = {
    decreases(f)
    f match {
      case NoTrees() => true
      case Trees(_, x, _, o) => n <= x && rootsAtLeast(o, n)
    }
  }

  // each root is at most the roots below it
  def ordered(f: Forest): Boolean = {
    decreases(f)
    f match {
      case NoTrees() => true
      case Trees(_, x, c, o) => rootsAtLeast(c, x) && ordered(c) && ordered(o)
    }
  }

  def orderedTree(t: Tree): Boolean = rootsAtLeast(t.children, t.root) && ordered(t.children)

  // the ranks go up
  def ascending(f: Forest): Boolean = {
    decreases(f)
    f match {
      case Trees(r, _, _, rest @ Trees(s, _, _, _)) => r < s && ascending(rest)
      case _ => true
    }
  }

  def link(a: Tree, b: Tree): Tree = {
    require(a.rank == b.rank && orderedTree(a) && orderedTree(b))
    if (a.root <= b.root) Tree(a.rank + 1, a.root, Trees(b.rank, b.root, b.children, a.children))
    else Tree(b.rank + 1, b.root, Trees(a.rank, a.root, a.children, b.children))
  } ensuring (res => orderedTree(res) && res.rank == a.rank + 1)

  def linkCounts(a: Tree, b: Tree, y: Int): Boolean = {
    require(a.rank == b.rank && orderedTree(a) && orderedTree(b))
    countTree(link(a, b), y) == countTree(a, y) + countTree(b, y)
  }.holds

  def insTree(t: Tree, f: Forest): Forest = {
    require(orderedTree(t) && ordered(f))
    decreases(f)
    f match {
      case NoTrees() => Trees(t.rank, t.root, t.children, NoTrees())
      case Trees(r, x, c, rest) =>
        if (t.rank < r) Trees(t.rank, t.root, t.children, f)
        else if (t.rank == r) insTree(link(t, Tree(r, x, c)), rest)
        else Trees(r, x, c, insTree(t, rest))
    }
  } ensuring (res => ordered(res))

  def insTreeCounts(t: Tree, f: Forest, y: Int): Boolean = {
    require(orderedTree(t) && ordered(f))
    decreases(f)
    val part = f match {
      case NoTrees() => true
      case Trees(r, x, c, rest) =>
        val u = Tree(r, x, c)
        if (t.rank < r) true
        else if (t.rank == r) linkCounts(t, u, y) && insTreeCounts(link(t, u), rest, y)
        else insTreeCounts(t, rest, y)
    }
    part && count(insTree(t, f), y) == countTree(t, y) + count(f, y)
  }.holds

  def insert(x: Int, f: Forest): Forest = {
    require(ordered(f))
    insTree(Tree(0, x, NoTrees()), f)
  } ensuring (res => ordered(res))

  def merge(a: Forest, b: Forest): Forest = {
    require(ordered(a) && ordered(b))
    decreases(a)
    a match {
      case NoTrees() => b
      case Trees(r, x, c, rest) => insTree(Tree(r, x, c), merge(rest, b))
    }
  } ensuring (res => ordered(res))

  def mergeCounts(a: Forest, b: Forest, y: Int): Boolean = {
    require(ordered(a) && ordered(b))
    decreases(a)
    val claim = count(merge(a, b), y) == count(a, y) + count(b, y)
    a match {
      case NoTrees() => claim
      case Trees(r, x, c, rest) => mergeCounts(rest, b, y) && insTreeCounts(Tree(r, x, c), merge(rest, b), y) && claim
    }
  }.holds

  // a tree of at most the first rank goes in
  def insTreeAscending(t: Tree, f: Forest): Boolean = {
    require(orderedTree(t) && ordered(f) && ascending(f) && (f match {
      case NoTrees() => true
      case Trees(r, _, _, _) => t.rank <= r
    }))
    decreases(f)
    val part = f match {
      case NoTrees() => true
      case Trees(r, x, c, rest) =>
        if (t.rank < r) true
        else if (t.rank == r) insTreeAscending(link(t, Tree(r, x, c)), rest)
        else insTreeAscending(t, rest)
    }
    part && ascending(insTree(t, f))
  }.holds
}
