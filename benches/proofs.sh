#!/usr/bin/env bash
# Times proofs: each program of examples/proofs is proved, but the wrong one. The head of each says what is proved, the
# words, and the last line that has to be printed.
# It prints the rows of a table: the program, its words, the seconds of the whole run, the median of five, and the last
# line that was printed. Then a table of the dearest proof of each program that is proved, by its lemmas: the number of
# the check in the program, the round, the steps of the guess runs, the gates of their circuit beside what the estimate
# has for this round alone, the clauses of what is asked, the lemmas, and the conflicts that MiniSat takes on the same
# clauses (without preprocessing; a dash where there is no `minisat`). With `--all` it has the proofs of all checks and
# rounds. It ends with the number of programs that answered as their head says, and of others.
# It wants python3. The program is ./pureproof; another one in its place is named by PUREPROOF. The second table wants
# crates/pp_program_cases/out/pp_program_cases, which `rt run` in that crate's folder leaves, or the program that
# SYMBOLIC names; it is left out where there is none.
set -eu
root=$(cd "$(dirname "${BASH_SOURCE[0]}")/.." && pwd)
program=$(readlink -f "${PUREPROOF:-$root/pureproof}")
cd "$root"
symbolic=${SYMBOLIC:-$root/crates/pp_program_cases/out/pp_program_cases}
python3 - "$program" "$symbolic" "${1:-}" examples/proofs/*.scala <<'PY'
import os, re, shutil, statistics, subprocess, sys, tempfile, time

PROGRAM, SYMBOLIC, ASKED, *PROOFS = sys.argv[1:]
RUNS, SECONDS = 5, 600


def run(words):
    """The last line that is printed, or what goes wrong, and the seconds; the program is ended after SECONDS."""
    start = time.monotonic()
    try:
        done = subprocess.run([PROGRAM, *words], capture_output=True, text=True, timeout=SECONDS)
    except subprocess.TimeoutExpired:
        return f"no answer after {SECONDS} s", SECONDS
    lines = (done.stdout or done.stderr).splitlines()
    return lines[-1] if lines else f"nothing, status {done.returncode}", time.monotonic() - start


alike = others = 0
run([PROOFS[0]])  # the script may unpack the program, once
print("| Program | Words | Seconds | Last line |\n|---|---|---|---|")
for path in PROOFS:
    with open(path) as file:
        _, words, wanted = (next(file).removeprefix("// ").rstrip("\n") for _ in range(3))
    lines, seconds = zip(*(run(words.split()[1:]) for _ in range(RUNS)))
    met = set(lines) == {wanted}
    alike, others = alike + met, others + (not met)
    name = os.path.basename(path).removesuffix(".scala")
    shown = " ".join(words.split()[1:-1])
    line = lines[0] if met else f"OTHER: {lines[0]}"
    print(f"| {name} | {shown} | {statistics.median(seconds):.2f} | {line} |", flush=True)


def conflicts(path, check, rounds):
    """How many conflicts MiniSat takes on the clauses of the proof."""
    if shutil.which("minisat") is None:
        return "-"
    words = [SYMBOLIC, f"clauses {path} {check} {rounds}"]
    _, clauses = subprocess.run(words, capture_output=True, text=True, timeout=SECONDS).stdout.split("\n", 1)
    with tempfile.NamedTemporaryFile("w", suffix=".cnf") as file:
        file.write(clauses)
        file.flush()
        said = subprocess.run(["minisat", "-no-pre", file.name], capture_output=True, text=True, timeout=SECONDS).stdout
    found = re.search(r"conflicts\s*:\s*(\d+)", said)
    return found[1] if found else "-"


PROOF = re.compile(r"check (\d+), round (\d+): (\d+) steps, (\d+) gates of (\d+), (\d+) clauses, (.*)")
if os.access(SYMBOLIC, os.X_OK):
    print("\n| Program | Check | Round | Steps | Gates | Estimate | Clauses | End | MiniSat |")
    print("|---|---|---|---|---|---|---|---|---|")
    rounds = beyond = 0
    for path in PROOFS:
        if path.endswith("_wrong.scala"):
            continue
        words = [SYMBOLIC, f"guesses {path} 4 10000"]
        told = PROOF.findall(subprocess.run(words, capture_output=True, text=True, timeout=SECONDS).stdout)
        rounds, beyond = rounds + len(told), beyond + sum(int(row[3]) > int(row[4]) for row in told)
        dearest = max(told, key=lambda row: int((re.findall(r"\d+", row[6]) or [0])[0]), default=None)
        name = os.path.basename(path).removesuffix(".scala")
        for row in told:
            if ASKED == "--all" or row is dearest:
                print("| " + " | ".join((name, *row, conflicts(path, *row[:2]))) + " |", flush=True)
    print(f"{rounds} rounds, {beyond} with more gates than their own estimate\n")

print(f"{alike} alike, {others} others")
sys.exit(others > 0)
PY
