import stainless.lang._

object Options {
  sealed trait Option[A]
  case class Some[A](value: A) extends Option[A]
  case class None[A]() extends Option[A]

  case class Entry[K, V](key: K, value: V)

  sealed trait Entries[K, V]
  case class More[K, V](first: Entry[K, V], rest: Entries[K, V]) extends Entries[K, V]
  case class End[K, V]() extends Entries[K, V]

  sealed trait Color
  case object Red extends Color
  case object Green extends Color

  def isDefined[A](o: Option[A]): Boolean = o match {
    case Some(_) => true
    case None() => false
  }

  def get[A](o: Option[A]): A = {
    require(isDefined(o))
    o match {
      case Some(a) => a
    }
  } ensuring (res => o == Some(res))

  def getOrElse[A](o: Option[A], other: A): A = {
    o match {
      case Some(a) => a
      case None() => other
    }
  } ensuring (res => o == Some(res) || (o == None[A]() && res == other))

  // The value of the first entry with this key.
  def find[K, V](entries: Entries[K, V], key: K): Option[V] = {
    decreases(entries)
    entries match {
      case More(e, _) if e.key == key => Some(e.value)
      case More(_, rest) => find(rest, key)
      case End() => None()
    }
  }

  // Changes the first entry with this key, or adds one.
  def put[K, V](entries: Entries[K, V], key: K, value: V): Entries[K, V] = {
    decreases(entries)
    entries match {
      case More(e, rest) if e.key == key => More(Entry(key, value), rest)
      case More(e, rest) => More(e, put(rest, key, value))
      case End() => More(Entry(key, value), End[K, V]())
    }
  } ensuring (res => find(res, key) == Some(value))

  // Putting under one key leaves the others.
  def othersStay[K, V](entries: Entries[K, V], key: K, value: V, other: K): Boolean = {
    require(other != key)
    decreases(entries)
    val here = find(put(entries, key, value), other) == find(entries, other)
    entries match {
      case More(_, rest) => othersStay(rest, key, value, other) && here
      case End() => here
    }
  }.holds

  def lights(): Entries[Int, Color] = put(put(End[Int, Color](), 1, Red), 2, Green)
  def second(): Color = get(find(lights(), 2))
  def third(): Color = getOrElse(find(lights(), 3), Red)
}
