// Merge sort gives a sorted list that has each number as often as the list: examples/proofs/merge_sort.scala in Dafny.
// Elements are those integers that fit in 32 bits, so that a list may be said to have no less element than the least of
// them. Counts are `int`, which don't wrap. No clause differs.

type Word = x: int | -0x8000_0000 <= x <= 0x7fff_ffff

const Least: Word := -0x8000_0000

datatype List = Cons(head: Word, tail: List) | Nil

// Lists that are still to be merged: of one number, of two, of four and so on. A gap stands where there is none.
datatype Runs = Run(first: List, rest: Runs) | Gap(rest: Runs) | End

// Goes down in either list.
function merge(a: List, b: List): List
  decreases a, b
{
  match a
  case Cons(x, s) => (match b
    case Cons(y, t) => if x <= y then Cons(x, merge(s, b)) else Cons(y, merge(a, t))
    case Nil => a)
  case Nil => b
}

// One run more: two of one length become one of the next, as when one is added to a binary number.
function add(l: List, runs: Runs): Runs
  decreases runs
{
  match runs
  case Run(m, rest) => Gap(add(merge(l, m), rest))
  case Gap(rest) => Run(l, rest)
  case End => Run(l, End)
}

// Each number is a run of its own.
function runs(l: List): Runs
  decreases l
{
  match l
  case Cons(x, t) => add(Cons(x, Nil), runs(t))
  case Nil => End
}

function merged(runs: Runs): List
  decreases runs
{
  match runs
  case Run(l, rest) => merge(l, merged(rest))
  case Gap(rest) => merged(rest)
  case End => Nil
}

function sort(l: List): List
  ensures isSorted(sort(l), Least)
{
  runsAreSorted(l);
  mergedIsSorted(runs(l));
  merged(runs(l))
}

// The list is in order, and no element is less than low.
predicate isSorted(l: List, low: Word)
  decreases l
{
  match l
  case Cons(h, t) => low <= h && isSorted(t, h)
  case Nil => true
}

predicate areSorted(runs: Runs)
  decreases runs
{
  match runs
  case Run(l, rest) => isSorted(l, Least) && areSorted(rest)
  case Gap(rest) => areSorted(rest)
  case End => true
}

lemma mergeIsSorted(a: List, b: List, low: Word)
  requires isSorted(a, low) && isSorted(b, low)
  ensures isSorted(merge(a, b), low)
  decreases a, b
{
  match a
  case Cons(x, s) =>
    match b {
      case Cons(y, t) => if x <= y { mergeIsSorted(s, b, x); } else { mergeIsSorted(a, t, y); }
      case Nil =>
    }
  case Nil =>
}

lemma oneIsSorted(x: Word)
  ensures isSorted(Cons(x, Nil), Least)
{
}

lemma addIsSorted(l: List, runs: Runs)
  requires isSorted(l, Least) && areSorted(runs)
  ensures areSorted(add(l, runs))
  decreases runs
{
  match runs
  case Run(m, rest) =>
    mergeIsSorted(l, m, Least);
    addIsSorted(merge(l, m), rest);
  case Gap(_) =>
  case End =>
}

lemma runsAreSorted(l: List)
  ensures areSorted(runs(l))
  decreases l
{
  match l
  case Cons(x, t) =>
    oneIsSorted(x);
    runsAreSorted(t);
    addIsSorted(Cons(x, Nil), runs(t));
  case Nil =>
}

lemma mergedIsSorted(runs: Runs)
  requires areSorted(runs)
  ensures isSorted(merged(runs), Least)
  decreases runs
{
  match runs
  case Run(l, rest) =>
    mergedIsSorted(rest);
    mergeIsSorted(l, merged(rest), Least);
  case Gap(rest) => mergedIsSorted(rest);
  case End =>
}

// Counting v on from n.
function one(x: Word, v: Word, n: int): int
{
  if x == v then n + 1 else n
}

function count(l: List, v: Word, n: int): int
  decreases l
{
  match l
  case Cons(x, t) => one(x, v, count(t, v, n))
  case Nil => n
}

function countIn(runs: Runs, v: Word, n: int): int
  decreases runs
{
  match runs
  case Run(l, rest) => count(l, v, countIn(rest, v, n))
  case Gap(rest) => countIn(rest, v, n)
  case End => n
}

lemma onesSwap(x: Word, y: Word, v: Word, n: int)
  ensures one(y, v, one(x, v, n)) == one(x, v, one(y, v, n))
{
}

// One more to begin with is one more in the end.
lemma countsOn(l: List, x: Word, v: Word, n: int)
  ensures count(l, v, one(x, v, n)) == one(x, v, count(l, v, n))
  decreases l
{
  match l
  case Cons(y, t) =>
    countsOn(t, x, v, n);
    onesSwap(x, y, v, count(t, v, n));
  case Nil =>
}

lemma mergeCounts(a: List, b: List, v: Word, n: int)
  ensures count(merge(a, b), v, n) == count(a, v, count(b, v, n))
  decreases a, b
{
  match a
  case Cons(x, s) =>
    match b {
      case Cons(y, t) =>
        if x <= y {
          mergeCounts(s, b, v, n);
        } else {
          mergeCounts(a, t, v, n);
          countsOn(a, y, v, count(t, v, n));
        }
      case Nil =>
    }
  case Nil =>
}

lemma oneCounts(x: Word, v: Word, n: int)
  ensures count(Cons(x, Nil), v, n) == one(x, v, n)
{
}

lemma addCounts(l: List, runs: Runs, v: Word, n: int)
  ensures countIn(add(l, runs), v, n) == count(l, v, countIn(runs, v, n))
  decreases runs
{
  match runs
  case Run(m, rest) =>
    addCounts(merge(l, m), rest, v, n);
    mergeCounts(l, m, v, countIn(rest, v, n));
  case Gap(_) =>
  case End =>
}

lemma runsCount(l: List, v: Word, n: int)
  ensures countIn(runs(l), v, n) == count(l, v, n)
  decreases l
{
  match l
  case Cons(x, t) =>
    runsCount(t, v, n);
    addCounts(Cons(x, Nil), runs(t), v, n);
    oneCounts(x, v, count(t, v, n));
  case Nil =>
}

lemma mergedCounts(runs: Runs, v: Word, n: int)
  ensures count(merged(runs), v, n) == countIn(runs, v, n)
  decreases runs
{
  match runs
  case Run(l, rest) =>
    mergedCounts(rest, v, n);
    mergeCounts(l, merged(rest), v, n);
  case Gap(rest) => mergedCounts(rest, v, n);
  case End =>
}

lemma sameCount(l: List, v: Word)
  ensures count(sort(l), v, 0) == count(l, v, 0)
{
  runsCount(l, v, 0);
  mergedCounts(runs(l), v, 0);
}
