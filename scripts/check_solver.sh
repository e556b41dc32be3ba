#!/usr/bin/env bash
# The solver beside minisat: 500 random problems, some with assumptions, which pp_circuit_cases decides (and tries the
# evidence of) and minisat too, with the assumptions as clauses. And its orders of calls to a trail, beside a plain
# scan. Ends with the number of checks that passed and failed. Where minisat is missing the problems are skipped. It
# wants python3 and crates/pp_circuit_cases/out/pp_circuit_cases, which `rt run` in that crate's folder leaves.
set -eu
root=$(cd "$(dirname "${BASH_SOURCE[0]}")/.." && pwd)
python3 "$root/scripts/solver_orders.py"
if ! command -v minisat > /dev/null; then
    echo 'check_solver: minisat is missing (apt-get install minisat): its problems are skipped'
    exit 0
fi
here=$(mktemp -d)
trap 'rm -rf "$here"' EXIT
cd "$here"
python3 - "$root/crates/pp_circuit_cases/out/pp_circuit_cases" <<'PY'
import random, subprocess, sys

PROBLEMS = 500
ANSWERS = {10: "sat", 20: "unsat"}


def problem(source):
    """Assumptions and clauses, about half of them satisfiable."""
    variables = source.randrange(3, 100)
    sign = lambda x: x if source.random() < 0.5 else -x
    chosen = lambda count: [sign(x) for x in source.sample(range(1, variables + 1), min(count, variables))]
    clauses = [chosen(3) for _ in range(round(variables * source.uniform(3.2, 4.8)))]
    clauses += [chosen(source.choice([1, 2, 2, 4])) for _ in range(source.randrange(4))]
    return chosen(source.choice([0, 0, 1, 2, 3])), clauses


def minisat(clauses):
    variables = max(abs(x) for clause in clauses for x in clause)
    with open("dimacs", "w") as out:
        out.write(f"p cnf {variables} {len(clauses)}\n")
        out.writelines(" ".join(map(str, clause + [0])) + "\n" for clause in clauses)
    return ANSWERS[subprocess.run(["minisat", "-verb=0", "dimacs"], capture_output=True).returncode]


problems = [problem(random.Random(seed)) for seed in range(PROBLEMS)]
text = lambda lits: " ".join(map(str, lits))
lines = [f"solve 1000000 : {text(a)} : " + " ; ".join(map(text, cs)) + " ;" for a, cs in problems]
command = [sys.argv[1], "solver /dev/stdin"]
ours = subprocess.run(command, input="\n".join(lines) + "\n", capture_output=True, text=True, check=True)
wanted = [minisat(cs + [[lit] for lit in a]) for a, cs in problems]
found = ours.stdout.splitlines()[1:]
wrong = [n for n in range(PROBLEMS) if found[n] != wanted[n]]
for n in wrong:
    print(f"check_solver: problem {n}: {found[n]} instead of {wanted[n]}")
print(f"{wanted.count('sat')} satisfiable, {wanted.count('unsat')} not; {PROBLEMS - len(wrong)} passed, {len(wrong)} failed")
sys.exit(bool(wrong))
PY
