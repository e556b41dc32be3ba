#!/usr/bin/env bash
# Times programs that grow, to see how the time grows with them. It makes the sources in a scratch folder:
# - lists: `length`, `append`, and a lemma over both, in 1, 5, 20 and 80 copies over one type of lists;
# - a chain of 40 functions, each of which but the first calls the one before it, each with a postcondition;
# - terms: the mirror image of a term, and a lemma by induction that its mirror image is the term. The type of terms has
#   30 constructors, and both functions call themselves on each part of each constructor. It is these calls that make
#   circuits large: where 20 constructors have parts, no round of the lemma but the first is below the most that
#   `--gates` takes, and it stays open. The last program is the way out: three constructors of terms, one for each
#   number of parts, each with a field that says which of ten it is.
# It prints the rows of a table: what, the words, the number of functions, the seconds of the whole run, and the last
# line that was printed. It ends with the number of programs that answered as expected, and of others. Expected is that
# all is valid, but for the one that is said to stay open. `growth.sh [COUNT]` runs each COUNT times, once without the
# word, and prints the median.
# It wants python3. The program is ./pureproof; another one in its place is named by PUREPROOF.
set -eu
root=$(cd "$(dirname "${BASH_SOURCE[0]}")/.." && pwd)
program=$(readlink -f "${PUREPROOF:-$root/pureproof}")
count=${1:-1}
case $count in
    '' | *[!0-9]* | 0*)
        echo "growth: no count: $count" >&2
        exit 2
        ;;
esac
here=$(mktemp -d)
trap 'rm -rf "$here"' EXIT
python3 - "$program" "$count" "$here" <<'PY'
import os, statistics, subprocess, sys, time

PROGRAM, COUNT, FOLDER = sys.argv[1], int(sys.argv[2]), sys.argv[3]
SECONDS = 600


def run(words):
    """The last line that is printed, or what goes wrong, and the seconds; the program is ended after SECONDS."""
    start = time.monotonic()
    try:
        done = subprocess.run([PROGRAM, *words], capture_output=True, text=True, timeout=SECONDS)
    except subprocess.TimeoutExpired:
        return f"no answer after {SECONDS} s", SECONDS
    lines = (done.stdout or done.stderr).splitlines()
    return lines[-1] if lines else f"nothing, status {done.returncode}", time.monotonic() - start


def lists(copies):
    """Copies of three functions over one type of lists."""
    head = """object Lists {
  sealed abstract class List
  case class Cons(head: Int, tail: List) extends List
  case class Nil() extends List
"""
    copy = """
  def length%(n)s(l: List): Int = {
    decreases(l)
    l match {
      case Cons(_, t) => 1 + length%(n)s(t)
      case Nil() => 0
    }
  }
  def append%(n)s(a: List, b: List): List = {
    decreases(a)
    a match {
      case Cons(h, t) => Cons(h, append%(n)s(t, b))
      case Nil() => b
    }
  }
  def lengthsAdd%(n)s(a: List, b: List): Boolean = {
    decreases(a)
    val rest = a match {
      case Cons(_, t) => lengthsAdd%(n)s(t, b)
      case Nil() => true
    }
    rest && length%(n)s(append%(n)s(a, b)) == length%(n)s(a) + length%(n)s(b)
  }.holds
"""
    return head + "".join(copy % {"n": n} for n in range(1, copies + 1)) + "}\n"


def chain(links):
    """Functions that add one to what the one before gives."""
    first = """  def add1(x: Int): Int = {
    require(0 <= x && x <= 1000000)
    x + 1
  } ensuring (res => x < res && res <= x + 1)
"""
    link = """  def add%(n)s(x: Int): Int = {
    require(0 <= x && x <= 1000000)
    add%(before)s(x) + 1
  } ensuring (res => x < res && res <= x + %(n)s)
"""
    links = "".join(link % {"n": n, "before": n - 1} for n in range(2, links + 1))
    return "object Chain {\n" + first + links + "}\n"


def mirrors(types, ctors):
    """The mirror image of a term, and that the mirror image of that is the term, over a type of terms. For each
    constructor: its name, its fields with their types, and how many of them, the last ones, are terms."""
    def fields(given):
        return ", ".join(f"{name}: {sort}" for name, sort in given)

    def names(given):
        return ", ".join(name for name, _ in given)

    def image(given, parts):
        kept, turned = given[:len(given) - parts], given[len(given) - parts:]
        return ", ".join([name for name, _ in kept] + [f"mirror({name})" for name, _ in reversed(turned)])

    def below(given, parts):
        return " && ".join(f"mirroredTwice({name})" for name, _ in given[len(given) - parts:])

    declared = "".join(f"  case class {name}({fields(given)}) extends Term\n" for name, given, _ in ctors)
    inner = [it for it in ctors if it[2] > 0]
    cases = [(f"      case {name}({names(given)}) =>", name, given, parts) for name, given, parts in inner]
    images = "".join(f"{case} {name}({image(given, parts)})\n" for case, name, given, parts in cases)
    lemmas = "".join(f"{case} {below(given, parts)}\n" for case, _, given, parts in cases)
    return f"""object Terms {{
{types}  sealed abstract class Term
{declared}
  def mirror(t: Term): Term = {{
    decreases(t)
    t match {{
{images}      case _ => t
    }}
  }}
  def mirroredTwice(t: Term): Boolean = {{
    decreases(t)
    val parts = t match {{
{lemmas}      case _ => true
    }}
    parts && mirror(mirror(t)) == t
  }}.holds
}}
"""


def terms(inner):
    """30 constructors, of which so many have parts, two and one in turn."""
    parts = [(2 - n % 2 if n < inner else 0) for n in range(30)]
    return mirrors("", [(f"Op{n}", [("a", "Term"), ("b", "Term")][:parts[n]], parts[n]) for n in range(30)])


def groups():
    """30 constants in three types, and three constructors of terms, each with one of the types."""
    types = "".join(f"  sealed trait Op{k}\n" + "".join(f"  case object Op{k}n{n} extends Op{k}\n" for n in range(10))
                    for k in range(3))
    return mirrors(types, [(f"With{k}", [("op", f"Op{k}"), ("a", "Term"), ("b", "Term")][:k + 1], k) for k in range(3)])


def valid(functions):
    return f"{functions} valid, 0 invalid, 0 open, 0 depending"


PROGRAMS = [(f"lists, {n} {'copies' if n > 1 else 'copy'}", "", lists(n), 3 * n, valid(3 * n)) for n in (1, 5, 20, 80)]
PROGRAMS += [
    ("chain of 40 functions", "", chain(40), 40, valid(40)),
    ("30 constructors, 2 with parts", "--depth 1", terms(2), 2, valid(2)),
    ("30 constructors, 4 with parts", "--depth 1", terms(4), 2, valid(2)),
    ("30 constructors, 20 with parts", "--depth 1 --gates 4000000", terms(20), 2,
     "1 valid, 0 invalid, 1 open, 0 depending"),
    ("30 constants, 3 constructors", "", groups(), 2, valid(2)),
]
path = os.path.join(FOLDER, "source.scala")
run([path])  # the script may unpack the program, once
alike = others = 0
print("| What | Words | Functions | Seconds | Last line |\n|---|---|---|---|---|")
for what, words, source, functions, wanted in PROGRAMS:
    with open(path, "w") as file:
        file.write(source)
    lines, seconds = zip(*(run([*words.split(), path]) for _ in range(COUNT)))
    met = set(lines) == {wanted}
    alike, others = alike + met, others + (not met)
    line = lines[0] if met else f"OTHER: {lines[0]}"
    print(f"| {what} | {words} | {functions} | {statistics.median(seconds):.2f} | {line} |", flush=True)
print(f"{alike} as expected, {others} others")
sys.exit(others > 0)
PY
