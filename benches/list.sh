#!/usr/bin/env bash
# Times what stands between typing and a verdict: instances, plan and estimates.
# - a source of 250,000 bytes with realistic functions, in mode `list`
# - a closure of 512 members: one generic function at 251 types
# - 400 functions with 2,000 nodes of expression each, in four sources
# - 512 functions with measures, each calling itself and the one before
# - 100 functions in a chain, two calls each, in mode `list` at round 12 and depth 6
# - 60 datatypes of five constructors each, and 60 functions with 80 choices between trees each, in mode `list` at
#   round 12 and depth 6
# - a run of a function of one line
# Where only instances and the plan are meant, the words ask for a run of a function that isn't there: it is looked up
# last, so that no estimate and no run is in the time. The time of parsing and typing alone is shown beside it. It wants
# crates/pureproof/out/pureproof and crates/pp_source_cases/out/pp_source_cases, which `rt run` in these crates' folders
# leaves; another program in the first's place is named by PUREPROOF.
set -eu
root=$(cd "$(dirname "${BASH_SOURCE[0]}")/.." && pwd)
program=${PUREPROOF:-$root/crates/pureproof/out/pureproof}
typing=$root/crates/pp_source_cases/out/pp_source_cases
here=$(mktemp -d)
trap 'rm -rf "$here"' EXIT
cd "$here"

python3 - <<'PY'
LIST = """  sealed abstract class List[A]
  case class Cons[A](head: A, tail: List[A]) extends List[A]
  case class Nil[A]() extends List[A]
"""
PART = """
  /* Whether each element of the list is at most the next. The measure is the list itself, so that
     each call is on a part of it. */
  def isSorted_N(l: List[Int]): Boolean = {
    decreases(l)
    l match {
      case Cons(first, rest) => rest match {
        case Cons(second, _) => first <= second && isSorted_N(rest)
        case Nil() => true
      }
      case Nil() => true
    }
  }

  /* Puts an element in its place: before the first one that isn't less. Where the list is sorted, so is the
     answer, and it has one element more. The lists are short, since the size is counted up to a thousand. */
  def insert_N(x: Int, l: List[Int]): List[Int] = {
    require(isSorted_N(l) && size_P(l) < 1000)
    decreases(l)
    l match {
      case Nil() => Cons(x, Nil())
      case Cons(first, rest) =>
        val smaller = x <= first
        if (smaller) Cons(x, l) else Cons(first, insert_N(x, rest))
    }
  } ensuring (res => isSorted_N(res) && size_P(res) == size_P(l) + 1)

  // How many elements the list has, up to a thousand.
  def size_N(l: List[Int]): Int = {
    decreases(l)
    l match {
      case Cons(_, rest) =>
        val n = size_N(rest)
        if (n >= 1000) 1000 else n + 1
      case Nil() => 0
    }
  } ensuring (res => 0 <= res && res <= 1000)

  /* The mean of two numbers that aren't negative, without a sum that wraps: the half of their difference is added
     to the lesser one. The difference of two numbers of the range from 0 on is in the range too, so that nothing
     wraps here either. The quotient truncates, and the mean of 1 and 2 is 1. */
  def mean_N(a: Int, b: Int): Int = {
    require(0 <= a && a <= b)
    val half = (b - a) / 2
    assert(half >= 0)
    a + half
  } ensuring (res => a <= res && res <= b)
"""
EMPTY = "  def size_(l: List[Int]): Int = 0\n"
source = "object Sorted {\n" + LIST + EMPTY
last = ""
for n in range(1000):
    part = PART.replace("_N", "_%d" % n).replace("_P", "_" + last)
    if n > 125 or len(source) + len(part) + 2 > 250000:
        break
    source += part
    last = "%d" % n
filling = "  // These lines only make the source as long as it is to be.\n"
source += filling * ((250000 - len(source) - 2) // len(filling))
open("realistic", "w").write(source + "}\n")

classes = 251
uses = []
for n in range(0, classes, 30):
    part = range(n, min(n + 30, classes))
    uses.append("  def use%d(): Int = %s\n" % (n, " + ".join("first(C%d(%d), %d)" % (i, i, i) for i in part)))
uses += ["  def more%d(): Int = %d\n" % (i, i) for i in range(512 - 2 * classes - len(uses))]
FIRST = """  def first[A](a: A, x: Int): Int = {
    val b = a
    if (b == a) x + 1 else x - 1
  } ensuring (res => res != x)
"""
types = ["  case class C%d(x: Int)\n" % i for i in range(classes)]
open("closure", "w").write("object A {\n" + "".join(types) + FIRST + "".join(uses) + "}\n")

group = "(" + "+".join(["a"] * 32) + ")"
body = "(" + "+".join([group] * 31) + ")+(" + "+".join(["a"] * 8) + ")"
for k in range(4):
    functions = ["  def f%d(a: Int): Int = %s\n" % (n, body) for n in range(100 * k, 100 * k + 100)]
    open("large%d" % k, "w").write("object A%d {\n" % k + "".join(functions) + "}\n")

PLAN = "  def f%d(x: Int): Int = { decreases(x); if (x <= 0) f%d(x) else f%d(x - 1) }\n"
plan = [PLAN % (n, n - 1, n) for n in range(1, 512)]
open("plan", "w").write("object A {\n  def f0(x: Int): Int = x\n" + "".join(plan) + "}\n")

CHAIN = """  def f%d(l: L, x: Int): Int = {
    f%d(l, x) + f%d(Cons(x, l), x + 1)
  } ensuring (res => res >= x)
"""
chain = [CHAIN % (n, n - 1, n - 1) for n in range(1, 100)]
open("chain", "w").write("""object A {
  sealed trait L
  case class Cons(h: Int, t: L) extends L
  case class Nil() extends L
  def f0(l: L, x: Int): Int = { if (l == Nil()) x else x + 1 } ensuring (res => res >= x)
""" + "".join(chain) + "}\n")

data = []
for n in range(60):
    data.append("  sealed trait T%d\n  case class E%d() extends T%d\n" % (n, n, n))
    for k in range(4):
        parts = (n, k, (n + k) % 60, (n + 7 * k + 1) % 60, n)
        data.append("  case class C%d_%d(x: Int, y: T%d, z: T%d) extends T%d\n" % parts)
PICK = """  def pick%d(x: Int, a: T%d, b: T%d): T%d = {
    val c = %s b
    %s c
  } ensuring (res => res == a || res == b)
"""
first = " ".join("if (x == %d) %s else" % (i, "ab"[i % 2]) for i in range(40))
second = " ".join("if (x == %d) %s else" % (i, "abc"[i % 3]) for i in range(40, 80))
picks = [PICK % (n, n, n, n, first, second) for n in range(60)]
open("edge", "w").write("object A {\n  def edge(): Int = Int.MinValue / -1 + -7 % 3\n}\n")
open("choices", "w").write("object A {\n" + "".join(data + picks) + "}\n")
PY

# run NAME WORDS FILE..: how long the program takes
run() {
    name=$1
    words=$2
    shift 2
    # shellcheck disable=SC2086
    "$program" $words "$@" > answer 2>&1 || true
    printf '%s: %s lines, the first %s\n' "$name" "$(wc -l < answer)" "$(head -n 1 answer)"
    for _ in 1 2 3; do
        bash -c "TIMEFORMAT='$name, parsed and typed: %R s'; time '$typing' 'type $*' > /dev/null"
        bash -c "TIMEFORMAT='$name: %R s'; time '$program' $words $* > /dev/null 2>&1" || true
    done
}
none='--mode run --function none'
run 'realistic source, listed' '--mode list' realistic
run 'closure of 512 members' "$none" closure
run '400 functions of 2,000 nodes' "$none" large0 large1 large2 large3
run 'plan of 512 functions' "$none" plan
run 'chain of 100 functions, listed' '--mode list --rounds 12 --depth 6' chain
run 'choices between trees of 60 datatypes, listed' '--mode list --rounds 12 --depth 6' choices
run 'a small run' '--mode run --function edge' edge
