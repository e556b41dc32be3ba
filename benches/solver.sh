#!/usr/bin/env bash
# Times the solver beside minisat, by conflict: random clauses of three literals, pigeons in holes, and the program's
# circuits of words (products, their order, sums, order), which circuit.py makes. For each it solves until 1,000, 5,000
# and 10,000 lemmas, and prints how many microseconds a lemma took, the processor time of solving alone: what a run with
# one lemma takes, which is reading, is taken off. Of minisat (-no-pre, at most 20 s) it prints the same of a whole run,
# without its parsing, and at the end how many times longer our conflicts took at the last number.
# It wants minisat (apt-get install minisat), python3, and crates/pp_circuit_cases/out/pp_circuit_cases, which `rt run` in
# that crate's folder leaves; another program in its place is named by SOLVER_CASES.
set -eu
root=$(cd "$(dirname "${BASH_SOURCE[0]}")/.." && pwd)
here=$(mktemp -d)
trap 'rm -rf "$here"' EXIT
cd "$here"
python3 -B - "${SOLVER_CASES:-$root/crates/pp_circuit_cases/out/pp_circuit_cases}" "$root/benches" <<'PY'
import random, re, resource, subprocess, sys

sys.path.insert(0, sys.argv[2])
from circuit import Circuit

PROGRAM = sys.argv[1]
LEMMAS = (1_000, 5_000, 10_000)
SECONDS = 20


def pigeons(count, holes):
    """Each pigeon sits in a hole, and no two in the same."""
    at = lambda pigeon, hole: pigeon * holes + hole + 1
    clauses = [[at(p, h) for h in range(holes)] for p in range(count)]
    for h in range(holes):
        clauses += [[-at(p, h), -at(q, h)] for p in range(count) for q in range(p)]
    return clauses


def three(seed, variables):
    """Random clauses of three literals, 4.26 for each variable."""
    source = random.Random(seed)
    clauses = []
    for _ in range(round(4.26 * variables)):
        chosen = source.sample(range(1, variables + 1), 3)
        clauses.append([x if source.random() < 0.5 else -x for x in chosen])
    return clauses


def asked(circuit, clauses):
    """The clauses of a circuit, and these besides."""
    return circuit.clauses() + clauses


def sums(bits):
    """Three words whose sum depends on the order."""
    c = Circuit(True)
    x, y, z = (c.word(bits) for _ in range(3))
    return asked(c, [[-c.equal(c.add(c.add(x, y), z), c.add(c.add(z, x), y))]])


def order(bits, count):
    """Words in a circle, each below the next."""
    c = Circuit(True)
    words = [c.word(bits) for _ in range(count)]
    return asked(c, [[c.less(words[at], words[(at + 1) % count])] for at in range(count)])


def product(bits, number):
    """Two words, neither of them 0 or 1, with this product."""
    c = Circuit(True)
    x, y = c.word(bits), c.word(bits)
    out = c.mul(x + [-1] * bits, y + [-1] * bits)
    return asked(c, [[bit if number >> place & 1 else -bit] for place, bit in enumerate(out)] + [x[1:], y[1:]])


def both_ways(bits):
    """Two words whose product depends on their order. The program takes factors in one order, so it would share these."""
    c = Circuit(True)
    x, y = c.word(bits), c.word(bits)
    pairs = zip(c.mul(x + [-1] * bits, y + [-1] * bits), c.mul(y + [-1] * bits, x + [-1] * bits))
    return asked(c, [[c.odd(a, b) for a, b in pairs]])


def write(clauses):
    variables = max(abs(x) for clause in clauses for x in clause)
    with open("dimacs", "w") as out:
        out.write(f"p cnf {variables} {len(clauses)}\n")
        for clause in clauses:
            out.write(" ".join(map(str, clause)) + " 0\n")
    with open("clauses", "w") as out:
        out.write("".join(" ".join(map(str, clause)) + " ; " for clause in clauses))


def minisat():
    """The conflicts, and the microseconds of each."""
    run = subprocess.run(["minisat", "-no-pre", f"-cpu-lim={SECONDS}", "dimacs"], capture_output=True, text=True)
    read = float(re.search(r"Parse time:\s*([0-9.]+)", run.stdout).group(1))
    whole = float(re.search(r"CPU time\s*:\s*([0-9.]+)", run.stdout).group(1))
    conflicts = int(re.search(r"conflicts\s*:\s*(\d+)", run.stdout).group(1))
    return conflicts, 1e6 * max(whole - read, 0) / max(conflicts, 1)


def ours(lemmas):
    """The lemmas and the seconds."""
    before = resource.getrusage(resource.RUSAGE_CHILDREN).ru_utime
    with open("clauses") as clauses:
        line = f"lemmas {lemmas} : : {clauses.read()}\n"
    run = subprocess.run([PROGRAM, "solver /dev/stdin"], input=line, capture_output=True, text=True, check=True)
    seconds = resource.getrusage(resource.RUSAGE_CHILDREN).ru_utime - before
    found = re.search(r"(\d+) lemmas", run.stdout)
    return (int(found.group(1)) if found else None), seconds


instances = [
    ("random, 150 variables", three(2, 150)),
    ("random, 200 variables", three(1, 200)),
    ("random, 250 variables", three(1, 250)),
    ("9 pigeons in 8 holes", pigeons(9, 8)),
    ("12 bits by 12 is 4194301", product(12, 4194301)),
    ("6 bits by 6, both ways", both_ways(6)),
    ("24 bits, sums", sums(24)),
    ("16 bits, order of 8", order(16, 8)),
    ("48 bits by 48 is a prime", product(48, 2**61 - 1)),
    ("64 bits, order of 200", order(64, 200)),
]
print(f"{'instance':26} {'clauses':>8} {'minisat':>9} {'us':>7} " + " ".join(f"{n:>8}" for n in LEMMAS) + f" {'ratio':>6}")
for name, clauses in instances:
    write(clauses)
    conflicts, each = minisat()
    _, reading = ours(1)
    row, last = [], None
    for lemmas in LEMMAS:
        count, seconds = ours(lemmas)
        if count is not None and count > 1:
            last = 1e6 * max(seconds - reading, 0) / count
        row.append("-" if count is None or count < lemmas else f"{last:.1f}")
        if count is None or count < lemmas:
            break
    row += ["-"] * (len(LEMMAS) - len(row))
    ratio = f"{last / each:6.1f}" if last and each else "     -"
    print(f"{name:26} {len(clauses):8} {conflicts:9} {each:7.1f} " + " ".join(f"{x:>8}" for x in row) + f" {ratio}", flush=True)
PY
