#!/usr/bin/env bash
# Times the search for counterexamples: each program of examples/bugs has a bug, whose line must be printed. The head of
# each names the bug, the words, and the line, which ends with `..` where the arguments aren't determined.
# Two more are for the memory of large circuits, with 4,000,000 gates by estimate: sums of 220 products, and lists that
# are appended in two orders.
# It prints the seconds and the peak of memory of each, and ends with the number of bugs that were found and missed.
# It wants python3 and crates/pureproof/out/pureproof, which `rt run` in that crate's folder leaves; another program in
# its place is named by PUREPROOF.
set -eu
root=$(cd "$(dirname "${BASH_SOURCE[0]}")/.." && pwd)
program=$(readlink -f "${PUREPROOF:-$root/crates/pureproof/out/pureproof}")
here=$(mktemp -d)
trap 'rm -rf "$here"' EXIT
cd "$root"
python3 - "$program" "$here" examples/bugs/*.scala <<'PY'
import os, subprocess, sys, threading, time

PROGRAM, FOLDER, *BUGS = sys.argv[1:]
SECONDS = 600


def run(words):
    """What the program prints, its status, its seconds and its peak of memory in MB; it is ended after SECONDS."""
    start = time.monotonic()
    child = subprocess.Popen([PROGRAM, *words], stdout=subprocess.PIPE, stderr=subprocess.STDOUT, text=True)
    timer = threading.Timer(SECONDS, child.kill)
    timer.start()
    out = child.stdout.read()
    _, status, used = os.wait4(child.pid, 0)
    timer.cancel()
    return out, os.waitstatus_to_exitcode(status), time.monotonic() - start, used.ru_maxrss / 1024


def fits(line, wanted):
    return line.startswith(wanted[:-2]) if wanted.endswith("..") else line == wanted


def show(name, seconds, memory, line):
    print(f"{name:12} {seconds:8.2f} s {memory:7.0f} MB  {line}", flush=True)


found = missed = 0
for path in BUGS:
    with open(path) as file:
        _, words, wanted = (next(file).removeprefix("// ").rstrip("\n") for _ in range(3))
    out, status, seconds, memory = run(words.split()[1:])
    line = next((it for it in out.splitlines() if fits(it, wanted)), None)
    name = os.path.basename(path).removesuffix(".scala")
    if line is not None and status == 1:
        found += 1
        show(name, seconds, memory, line)
    else:
        missed += 1
        show(name, seconds, memory, f"MISSED, status {status}: {wanted}\n{out}")


def products(first, last):
    """The sum of a product for each number, no two with the same factors."""
    if first == last:
        return f"(a ^ {first}) * (b ^ {3 * first + 1})"
    middle = (first + last) // 2
    return f"({products(first, middle)} + {products(middle + 1, last)})"


WIDE = f"""object Wide {{
  def wide(a: Int, b: Int): Boolean = {{ {products(1, 220)} != 7 }}.holds
}}
"""
LONG = """object Long {
  sealed abstract class L
  case class Cons(h: Int, t: L) extends L
  case class Nil() extends L
  def append(a: L, b: L): L = {
    decreases(a)
    a match {
      case Cons(h, t) => Cons(h, append(t, b))
      case Nil() => b
    }
  }
  def same(a: L, b: L): Boolean = { append(append(a, b), a) == append(a, append(b, a)) }.holds
}
"""
for name, source, words in [
    ("wide", WIDE, "--rounds 0 --lemmas 1 --gates 4000000"),
    ("long", LONG, "--rounds 6 --depth 4 --lemmas 100000 --gates 4000000"),
]:
    path = os.path.join(FOLDER, name)
    with open(path, "w") as file:
        file.write(source)
    out, status, seconds, memory = run([*words.split(), path])
    show(name, seconds, memory, f"status {status}, {' / '.join(out.splitlines())}")
print(f"{found} found, {missed} missed")
sys.exit(missed > 0)
PY
