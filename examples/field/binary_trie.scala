// Binary tries: sets of lists of bits, without dead branches.
// Tobias Nipkow and others, "Functional Algorithms, Verified!", 2021, the chapter on tries.
import stainless.lang._

object BinaryTrie {
  sealed abstract class Bits
  case class Bit(one: Boolean, rest: Bits) extends Bits
  case class End() extends Bits

  sealed abstract class Trie
  case class Node(here: Boolean, zero: Trie, one: Trie) extends Trie
  case class Leaf() extends Trie

  def member(t: Trie, k: Bits): Boolean = {
    decreases(t)
    t match {
      case Leaf() => false
      case Node(here, z, o) => k match {
        case End() => here
        case Bit(b, rest) => if (b) member(o, rest) else member(z, rest)
      }
    }
  }

  def insert(t: Trie, k: Bits): Trie = {
    decreases(k)
    k match {
      case End() => t match {
        case Leaf() => Node(true, Leaf(), Leaf())
        case Node(_, z, o) => Node(true, z, o)
      }
      case Bit(b, rest) => t match {
        case Leaf() =>
          if (b) Node(false, Leaf(), insert(Leaf(), rest)) else Node(false, insert(Leaf(), rest), Leaf())
        case Node(here, z, o) => if (b) Node(here, z, insert(o, rest)) else Node(here, insert(z, rest), o)
      }
    }
  } ensuring (res => member(res, k) && res != Leaf())

  // a node, but nothing where it would be empty
  def node(here: Boolean, zero: Trie, one: Trie): Trie = {
    if (!here && zero == Leaf() && one == Leaf()) Leaf() else Node(here, zero, one)
  }

  def delete(t: Trie, k: Bits): Trie = {
    decreases(t)
    t match {
      case Leaf() => Leaf()
      case Node(here, z, o) => k match {
        case End() => node(false, z, o)
        case Bit(b, rest) => if (b) node(here, z, delete(o, rest)) else node(here, delete(z, rest), o)
      }
    }
  } ensuring (res => !member(res, k))

  // no empty node
  def isPruned(t: Trie): Boolean = {
    decreases(t)
    t match {
      case Leaf() => true
      case Node(here, z, o) => (here || z != Leaf() || o != Leaf()) && isPruned(z) && isPruned(o)
    }
  }

  def insertMember(t: Trie, k: Bits, q: Bits): Boolean = {
    decreases(k)
    val part = k match {
      case End() => true
      case Bit(b, rest) => q match {
        case End() => true
        case Bit(_, qs) => t match {
          case Leaf() => insertMember(Leaf(), rest, qs)
          case Node(_, z, o) => if (b) insertMember(o, rest, qs) else insertMember(z, rest, qs)
        }
      }
    }
    part && member(insert(t, k), q) == (member(t, q) || k == q)
  }.holds

  def insertPruned(t: Trie, k: Bits): Boolean = {
    require(isPruned(t))
    decreases(k)
    k match {
      case End() => isPruned(insert(t, k))
      case Bit(b, rest) => t match {
        case Leaf() => insertPruned(Leaf(), rest) && isPruned(insert(t, k))
        case Node(_, z, o) =>
          (if (b) insertPruned(o, rest) else insertPruned(z, rest)) && isPruned(insert(t, k))
      }
    }
  }.holds

  def deleteMember(t: Trie, k: Bits, q: Bits): Boolean = {
    decreases(t)
    val part = t match {
      case Leaf() => true
      case Node(_, z, o) => k match {
        case End() => true
        case Bit(b, rest) => q match {
          case End() => true
          case Bit(_, qs) => if (b) deleteMember(o, rest, qs) else deleteMember(z, rest, qs)
        }
      }
    }
    part && member(delete(t, k), q) == (member(t, q) && k != q)
  }.holds

  def deletePruned(t: Trie, k: Bits): Boolean = {
    require(isPruned(t))
    decreases(t)
    val part = t match {
      case Leaf() => true
      case Node(_, z, o) => k match {
        case End() => true
        case Bit(b, rest) => if (b) deletePruned(o, rest) else deletePruned(z, rest)
      }
    }
    part && isPruned(delete(t, k))
  }.holds
}
