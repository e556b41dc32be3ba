#!/usr/bin/env bash
# How large the circuits of runs are, and how fast they are built: a list's length with fuel 4, sorted insertion over
# lists of numbers, a function of 60 values, a product in a loop of 4 calls, a match on a known list, one with
# literals in its patterns, whose case calls a function with exponents that are known, and a match of two literals in
# a list. For each check it prints the steps of the run, the gates of the circuit (inputs and the constant among them)
# and the estimate; and for each program the seconds that all its circuits took, and how many gates a second were
# built. Reading the program isn't counted: the circuits are built many times, and once the program is only read. It
# wants python3 and crates/pp_program_cases/out/pp_program_cases, which `rt run` in that crate's folder leaves;
# another program in its place is named by SYMBOLIC. With a folder as its argument it only leaves the sources and
# their words there.
set -eu
root=$(cd "$(dirname "${BASH_SOURCE[0]}")/.." && pwd)
program=${SYMBOLIC:-$root/crates/pp_program_cases/out/pp_program_cases}
here=$(mktemp -d)
trap 'rm -rf "$here"' EXIT
python3 - "$program" "$here" "${1:-}" "$root/crates/pp_program_cases/data/length.scala" <<'PY'
import os, re, subprocess, sys, time

PROGRAM, FOLDER, LEFT, LENGTH = sys.argv[1:]
TIMES = 20

with open(LENGTH) as file:
    length = file.read()

INSERTION = """object Insertion {
  sealed abstract class List
  case class Cons(head: Int, tail: List) extends List
  case class Nil() extends List

  def isSorted(l: List): Boolean = {
    decreases(l)
    l match {
      case Cons(a, t) => t match {
        case Cons(b, _) => a <= b && isSorted(t)
        case Nil() => true
      }
      case Nil() => true
    }
  }

  def insert(x: Int, l: List): List = {
    require(isSorted(l))
    decreases(l)
    l match {
      case Cons(h, t) => if (x <= h) Cons(x, l) else Cons(h, insert(x, t))
      case Nil() => Cons(x, Nil())
    }
  } ensuring (r => isSorted(r))
}
"""

OPERATORS = ["+", "-", "*", "&", "|", "^"]


def arithmetic(count):
    """A function with so many values, each made of the two before it."""
    lines = ["object Arithmetic {", "  def f(v0: Int, v1: Int): Int = {"]
    for i in range(2, count + 2):
        lines.append(f"    val v{i} = (v{i - 2} {OPERATORS[i % 6]} v{i - 1}) + {i}")
    lines += [f"    v{count + 1}", "  } ensuring (r => r != 7)", "}"]
    return "\n".join(lines) + "\n"


POWER = """object Power {
  def power(x: Int, n: Int): Int = {
    require(n >= 0 && n <= 4)
    decreases(n)
    if (n == 0) 1 else x * power(x, n - 1)
  } ensuring (r => r != 7)
}
"""

KNOWN = """object Known {
  sealed abstract class List
  case class Cons(head: Int, tail: List) extends List
  case class Nil() extends List

  def check(a: Int): Boolean = {
    Cons(3, Cons(4, Nil())) match {
      case Cons(b, Cons(c, Nil())) => b + c == 7
      case Cons(b, t) => a * b * a == 12
      case Nil() => a / 3 == 5
    }
  }.holds
}
"""

LITERALS = """object Literals {
  sealed abstract class List
  case class Cons(head: Int, tail: List) extends List
  case class Nil() extends List

  def power(x: Int, n: Int): Int = {
    require(n >= 0 && n <= 4)
    decreases(n)
    if (n == 0) 1 else x * power(x, n - 1)
  }

  def check(x: Int): Boolean = {
    Cons(3, Cons(4, Nil())) match {
      case Cons(2, _) => x / 7 == 5
      case Cons(3, Cons(n, _)) => power(x, n) == power(x, 2) * power(x, 2)
      case _ => x % 7 == 5
    }
  }.holds
}
"""

PAIR = """object Pair {
  sealed abstract class List
  case class Cons(head: Int, tail: List) extends List
  case class Nil() extends List

  def p(l: List): Boolean = {
    l match {
      case Cons(3, Cons(4, Nil())) => false
      case _ => true
    }
  }.holds
}
"""

WORKS = [("length", length, 4, 3), ("length", length, 4, 6)]
WORKS += [("insertion", INSERTION, n, 4) for n in range(4)]
WORKS += [("arithmetic", arithmetic(60), 0, 1), ("power", POWER, 4, 1)]
WORKS += [("known", KNOWN, n, 3) for n in range(3)] + [("literals", LITERALS, n, 1) for n in (1, 6)]
WORKS += [("pair", PAIR, n, 3) for n in range(3)]


def told(path, round, depth, times):
    """What is printed, and the seconds."""
    start = time.monotonic()
    words = [PROGRAM, f"circuits {path} {round} {depth} {times}"]
    text = subprocess.run(words, capture_output=True, text=True, check=True).stdout
    return text, time.monotonic() - start


for number, (name, source, round, depth) in enumerate(WORKS):
    path = os.path.join(LEFT or FOLDER, f"{number:02}_{name}_{round}_{depth}")
    with open(path, "w") as file:
        file.write(source)
    if LEFT:
        with open(path + ".args", "w") as file:
            file.write(f"circuits /dev/stdin {round} {depth} 1\n")
        continue
    read = min(told(path, round, depth, 0)[1] for _ in range(3))
    text, seconds = min((told(path, round, depth, TIMES) for _ in range(3)), key=lambda it: it[1])
    gates = sum(map(int, re.findall(r"(\d+) gates of", text)))
    each = max(seconds - read, 1e-9) / TIMES
    print(f"{name}, round {round}, depth {depth}: {each * 1e3:.2f} ms, {gates / each:,.0f} gates a second")
    for line in text.splitlines()[1:]:
        print(f"  {line}")
PY
