#!/usr/bin/env bash
# Times mode `run` on the functions of benches/machine/Runs.scala, beside the same functions in Java as a JVM's
# interpreter runs them (`java -Xint`, benches/machine/Runs.java): `machine.sh [COUNT]` runs each COUNT times, five
# without the word, ours and the JVM's in turn.
# - `deep`: 100,000 calls open at once
# - `numbers`: a million calls on numbers, of 17 nodes of expression each
# - `list`: a list of 99,998 elements is built, measured and summed
# - `printed`: it is built and printed
# - `sorted`: 2,000 elements are sorted by insertion
# It prints the rows of a table: the function, the median of our seconds from the words to the end of the program, that
# of the JVM's without its start, and how many times as long ours takes; then the nodes a second of `numbers`, and where
# there is GNU time the bytes of a call that is open and of a constructor, by the peaks of memory of runs (`kept` makes
# two million constructors, and `few` a fortieth of them). It ends with the number of functions whose values agree.
# Where there is no Java the JVM's columns are empty.
# The program is ./pureproof; another one in its place is named by PUREPROOF.
set -eu
root=$(cd "$(dirname "${BASH_SOURCE[0]}")/.." && pwd)
program=$(readlink -f "${PUREPROOF:-$root/pureproof}")
count=${1:-5}
case $count in
    '' | *[!0-9]* | 0*)
        echo "machine: no count: $count" >&2
        exit 2
        ;;
esac
here=$(mktemp -d)
trap 'rm -rf "$here"' EXIT
java=none
if command -v javac > /dev/null && command -v java > /dev/null; then
    javac -d "$here" "$root/benches/machine/Runs.java"
    java=$here
fi
python3 - "$program" "$root/benches/machine/Runs.scala" "$java" "$count" <<'PY'
import os, statistics, subprocess, sys, time

PROGRAM, SOURCE, JAVA, COUNT = sys.argv[1:]
NAMES = ["deep", "numbers", "list", "printed", "sorted"]
NODES, CALLS, TREES = 17 * 20 * 50001, 100000, 39 * 50000


def words(name):
    return [PROGRAM, "--mode", "run", "--function", name, "--fuel", "100000", SOURCE]


def ours(name):
    """The line of a run of the function, and its seconds."""
    start = time.monotonic()
    done = subprocess.run(words(name), capture_output=True, text=True)
    return done.stdout.strip(), time.monotonic() - start


def peak(name):
    """The peak of memory of a run of the function in bytes, as GNU time tells it."""
    done = subprocess.run(["/usr/bin/time", "-f", "%M", *words(name)], capture_output=True, text=True)
    return int(done.stderr) * 1024


def theirs(name):
    done = subprocess.run(["java", "-Xint", "-cp", JAVA, "Runs", name], capture_output=True, text=True, check=True)
    return done.stdout.strip(), float(done.stderr)


agree = 0
seconds = {}
print("| Run | Seconds | JVM, interpreted | Ratio |")
print("|---|---|---|---|")
for name in NAMES:
    mine, others, lines = [], [], set()
    for _ in range(int(COUNT)):
        line, took = ours(name)
        mine.append(took)
        lines.add(line)
        if JAVA != "none":
            line, took = theirs(name)
            others.append(took)
            lines.add(line)
    agree += len(lines) == 1
    seconds[name] = statistics.median(mine)
    beside = f"{statistics.median(others):.3f} | {seconds[name] / statistics.median(others):.1f}" if others else "|"
    print(f"| {name} | {seconds[name]:.3f} | {beside} |")
print(f"{NODES / seconds['numbers'] / 1e6:.1f} million nodes a second")
if os.path.exists("/usr/bin/time"):
    print(f"{(peak('deep') - peak('one')) / CALLS:.0f} bytes an open call")
    print(f"{(peak('kept') - peak('few')) / TREES:.0f} bytes a constructor with two fields")
print(f"{agree} of {len(NAMES)} agree")
PY
