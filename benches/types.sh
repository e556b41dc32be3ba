#!/usr/bin/env bash
# Times typing: sixteen sources of 262,144 bytes with realistic functions that call one another; a function with one
# expression of 60,000 nodes; and 10,000 case classes of which each holds the next, in either order. The time of
# parsing alone is shown beside it. It wants crates/pp_source_cases/out/pp_source_cases, which `rt run` in that crate's
# folder leaves.
set -eu
root=$(cd "$(dirname "${BASH_SOURCE[0]}")/.." && pwd)
program=$root/crates/pp_source_cases/out/pp_source_cases
here=$(mktemp -d)
trap 'rm -rf "$here"' EXIT
cd "$here"

python3 - <<'PY'
SIZE = 262144
LIST = """  sealed abstract class List[A]
  case class Cons[A](h: A, t: List[A]) extends List[A]
  case class Nil[A]() extends List[A]
"""
PART = """  def insert_%s(x: Int, l: List[Int]): List[Int] = {
    require(%s(l) < 1000)
    l match {
      case Cons(h, t) => if (x <= h) Cons(x, l) else Cons(h, insert_%s(x, t)) // in its place
      case Nil() => Cons(x, Nil())
    }
  } ensuring (res => %s(res) == %s(l) + 1)
  def size_%s(l: List[Int]): Int = {
    decreases(l)
    l match {
      case Cons(_, t) => 1 + size_%s(t)
      case Nil() => 0
    }
  }
"""
last = "size_0_0"
for source in range(16):
    text = "object A%d {\n" % source + (LIST if source == 0 else "")
    n = 0
    while True:
        name = "%d_%d" % (source, n)
        part = PART % (name, last, name, last, last, name, name)
        if len(text) + len(part) + 2 > SIZE:
            break
        text += part
        last = "size_" + name
        n += 1
    open("source%d" % source, "w").write(text + "}\n")


def tree(nodes):
    if nodes <= 1:
        return "a"
    left = (nodes - 1) // 2
    return "(" + tree(left) + "+" + tree(nodes - 1 - left) + ")"


open("expression", "w").write("object A { def f(a: Int): Int = " + tree(59999) + " }")
classes = ["case class C%d(c: C%d)" % (n, n + 1) for n in range(9999)] + ["case class C9999()"]
for name, order in [("down", classes), ("up", classes[::-1])]:
    half = len(order) // 2
    for k, part in enumerate([order[:half], order[half:]]):
        open("%s%d" % (name, k), "w").write("object A { " + ";".join(part) + " }")
PY

run() {
    name=$1
    shift
    printf '%s: ' "$name"
    "$program" "type $*" | tail -n 1
    for _ in 1 2 3; do
        bash -c "TIMEFORMAT='$name, parsed: %R s'; time '$program' 'parse $*' > /dev/null"
        bash -c "TIMEFORMAT='$name, parsed and typed: %R s'; time '$program' 'type $*' > /dev/null"
    done
}
run 'sixteen sources' source0 source1 source2 source3 source4 source5 source6 source7 source8 source9 source10 source11 \
    source12 source13 source14 source15
run 'one expression' expression
run 'each holds the next' down0 down1
run 'each holds the one before' up0 up1
