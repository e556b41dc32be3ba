#!/usr/bin/env bash
# Conflicts that minisat takes on six questions about words, put as clauses of circuits as they were built before (a
# carry by a choice, an order by a difference and a choice, all digits of a remainder subtracted), as they are built
# now (both by a majority, only the digits that a remainder may have), and as they would be with an exclusive or of
# three besides. One run says little, since it hangs on how the variables are numbered: the median of eleven
# numberings is shown, and the least and the greatest. The circuits are those of a model of pp_bits, pp_products and
# pp_shifts, which has their gates: it prints the numbers over fresh words of 32 bits first, which pp_circuit_cases
# prints too. It wants minisat (apt-get install minisat) and python3.
set -eu
benches=$(cd "$(dirname "${BASH_SOURCE[0]}")" && pwd)
here=$(mktemp -d)
trap 'rm -rf "$here"' EXIT
cd "$here"
python3 -B - "$benches" <<'PY'
import random, re, statistics, subprocess, sys

sys.path.insert(0, sys.argv[1])
from circuit import Circuit, constant

NUMBERINGS = 11


def product(c):
    a, b = c.word(12), c.word(12)
    out = c.mul(a + [-1] * 12, b + [-1] * 12)
    return [[c.equal(out, constant(4194301, 24))], a[1:], b[1:]]


def quotient(c):
    a, d = c.word(6), c.word(6)
    q, r = c.divide(a, d)
    return [d, [-c.equal(c.add(c.mul(q, d), r), a)]]


def order(c):
    a, b, d = ([*c.word(16), -1] for _ in range(3))
    return [[c.less(a, b)], [-c.less(c.add(a, d), c.add(d, b))]]


def sums(c):
    a, b, d = (c.word(16) for _ in range(3))
    return [[-c.equal(c.sub(c.add(a, b), b), c.sub(c.add(a, d), d))]]


def shifts(c):
    a, b, d = c.word(12), c.word(12), c.word(4)
    return [[-c.equal(c.shl(c.add(a, b), d), c.add(c.shl(a, d), c.shl(b, d)))]]


def equal_sums(c):
    a, b, d = (c.word(16) for _ in range(3))
    return [[-c.equal(c.add(c.add(a, b), d), c.add(a, c.add(b, d)))]]


def conflicts(circuit, asked, seed):
    numbers = [*range(1, len(circuit.gates) + 1)]
    order = random.Random(seed)
    order.shuffle(numbers)
    clauses = [[numbers[abs(lit) - 1] * (1 if lit > 0 else -1) for lit in clause] for clause in circuit.clauses() + asked]
    order.shuffle(clauses)
    with open("dimacs", "w") as out:
        out.write(f"p cnf {len(numbers)} {len(clauses)}\n")
        out.writelines(" ".join(map(str, clause)) + " 0\n" for clause in clauses)
    run = subprocess.run(["minisat", "dimacs"], capture_output=True, text=True, timeout=300)
    assert run.returncode == 20, "satisfiable"
    return int(re.search(r"conflicts\s*:\s*(\d+)", run.stdout).group(1))


def median(how, question):
    circuit = Circuit(*how)
    asked = question(circuit)
    counts = [conflicts(circuit, asked, seed) for seed in range(NUMBERINGS)]
    return f"{statistics.median(counts)} ({min(counts)} to {max(counts)})"


def counted(how, operation):
    circuit = Circuit(*how)
    a, b = circuit.word(32), circuit.word(32)
    operation(circuit, a, b)
    return len(circuit.gates) - 65


BEFORE, NOW, ODD_OF_THREE = (False,), (True,), (True, True)
print(f"{'gates over fresh words':32} {'before':>24} {'now':>24}")
for name, operation in (("add", Circuit.add), ("less", Circuit.less), ("mul", Circuit.mul), ("divide", Circuit.divide)):
    print(f"{name:32} {counted(BEFORE, operation):24} {counted(NOW, operation):24}")
print(f"{'conflicts':32} {'before':>24} {'now':>24} {'with xor of three':>24}")
for name, question in (
    ("two words of 12 bits by 4194301", product),
    ("quotient and remainder, 6 bits", quotient),
    ("order under sums, 16 bits", order),
    ("sums and differences, 16 bits", sums),
    ("shifts of sums, 12 bits", shifts),
    ("sums in another order, 16 bits", equal_sums),
):
    print(f"{name:32}" + "".join(f" {median(how, question):>24}" for how in (BEFORE, NOW, ODD_OF_THREE)))
PY
