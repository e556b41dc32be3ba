// With a bug, at `// bug`: the value that is there stays
// Lists of keys and values: reading what was written, and keys without doubles.
// The form is that of the testcase AssociativeList of the Leon verifier (Suter, Köksal, Kuncak, "Satisfiability modulo
// recursive programs", 2011).
import leon.lang._

object AssociativeList {
  case class KeyValuePair(key: Int, value: Int)

  sealed abstract class List
  case class Cons(head: KeyValuePair, tail: List) extends List
  case class Nil() extends List

  sealed abstract class OptionInt
  case class Some(i: Int) extends OptionInt
  case class None() extends OptionInt

  def hasKey(l: List, k: Int): Boolean = {
    decreases(l)
    l match {
      case Nil() => false
      case Cons(KeyValuePair(key, _), xs) => key == k || hasKey(xs, k)
    }
  }

  def find(l: List, e: Int): OptionInt = {
    decreases(l)
    l match {
      case Nil() => None()
      case Cons(KeyValuePair(k, v), xs) => if (k == e) Some(v) else find(xs, e)
    }
  } ensuring (res => (res != None()) == hasKey(l, e))

  def noDuplicates(l: List): Boolean = {
    decreases(l)
    l match {
      case Nil() => true
      case Cons(KeyValuePair(k, _), xs) => find(xs, k) == None() && noDuplicates(xs)
    }
  }

  def updateElem(l: List, e: KeyValuePair): List = {
    decreases(l)
    l match {
      case Nil() => Cons(e, Nil())
      case Cons(KeyValuePair(k, v), xs) =>
        // bug: the value that is there stays
        if (k == e.key) Cons(KeyValuePair(k, v), xs) else Cons(KeyValuePair(k, v), updateElem(xs, e))
    }
  } ensuring (res => find(res, e.key) == Some(e.value))

  def updateAll(l1: List, l2: List): List = {
    decreases(l2)
    l2 match {
      case Nil() => l1
      case Cons(x, xs) => updateAll(updateElem(l1, x), xs)
    }
  }

  def remove(l: List, k: Int): List = {
    decreases(l)
    l match {
      case Nil() => Nil()
      case Cons(p, xs) => if (p.key == k) remove(xs, k) else Cons(p, remove(xs, k))
    }
  } ensuring (res => !hasKey(res, k))

  def readOverWrite(l: List, e: KeyValuePair, k: Int): Boolean = {
    decreases(l)
    val claim = e match {
      case KeyValuePair(key, value) =>
        find(updateElem(l, e), k) == (if (k == key) Some(value) else find(l, k))
    }
    l match {
      case Nil() => claim
      case Cons(_, xs) => readOverWrite(xs, e, k) && claim
    }
  }.holds

  def updateKeys(l: List, e: KeyValuePair, k: Int): Boolean = {
    decreases(l)
    val part = l match {
      case Nil() => true
      case Cons(_, xs) => updateKeys(xs, e, k)
    }
    part && hasKey(updateElem(l, e), k) == (hasKey(l, k) || k == e.key)
  }.holds

  def updateNoDuplicates(l: List, e: KeyValuePair): Boolean = {
    require(noDuplicates(l))
    decreases(l)
    val part = l match {
      case Nil() => true
      case Cons(p, xs) => updateNoDuplicates(xs, e) && readOverWrite(xs, e, p.key)
    }
    part && noDuplicates(updateElem(l, e))
  }.holds

  def updateAllKeys(l1: List, l2: List, k: Int): Boolean = {
    decreases(l2)
    val part = l2 match {
      case Nil() => true
      case Cons(x, xs) => updateAllKeys(updateElem(l1, x), xs, k) && updateKeys(l1, x, k)
    }
    part && hasKey(updateAll(l1, l2), k) == (hasKey(l1, k) || hasKey(l2, k))
  }.holds

  def removeOthers(l: List, k: Int, other: Int): Boolean = {
    require(k != other)
    decreases(l)
    val part = l match {
      case Nil() => true
      case Cons(_, xs) => removeOthers(xs, k, other)
    }
    part && find(remove(l, k), other) == find(l, other)
  }.holds
}
