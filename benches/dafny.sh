#!/usr/bin/env bash
# Times the programs of examples/proofs beside the same programs in Dafny, which lie in benches/dafny under the same
# names: `dafny.sh [COUNT]` runs each COUNT times, five without the word, pureproof and Dafny in turn.
# It prints the versions of both, and the rows of a table: the program, the median of pureproof's seconds, that of
# Dafny's, and how many times as long Dafny takes. It ends with the number of programs that took less than a twentieth
# of Dafny's time, and of those that weren't proved by both.
# In Dafny's files numbers are `int`, which don't wrap. With `bv32` in their place, which have no sign, Dafny 2.3.0
# answered within 60 s, of a busy machine, on two of the eleven that were tried.
# Where z3 is newer than Dafny, Dafny prints complaints about an option, which change nothing.
# It wants python3, and Dafny (`apt-get install dafny`); where there is none it says so and ends with status 0. The
# program is ./pureproof; another one in its place is named by PUREPROOF, another Dafny by DAFNY.
set -eu
root=$(cd "$(dirname "${BASH_SOURCE[0]}")/.." && pwd)
program=$(readlink -f "${PUREPROOF:-$root/pureproof}")
dafny=${DAFNY:-dafny}
count=${1:-5}
case $count in
    '' | *[!0-9]* | 0*)
        echo "dafny: no count: $count" >&2
        exit 2
        ;;
esac
if ! command -v "$dafny" > /dev/null; then
    echo "dafny: skipped, there is no $dafny"
    exit 0
fi
cd "$root"
python3 - "$program" "$dafny" "$count" benches/dafny/*.dfy <<'PY'
import hashlib, os, re, shutil, statistics, subprocess, sys, time

PROGRAM, DAFNY, COUNT, *FILES = sys.argv[1:]
SECONDS, PART = 600, 20


def run(words):
    """What the words print, their status, and the seconds; they are ended after SECONDS."""
    start = time.monotonic()
    try:
        done = subprocess.run(words, capture_output=True, text=True, timeout=SECONDS)
    except subprocess.TimeoutExpired:
        return "", None, SECONDS
    return done.stdout, done.returncode, time.monotonic() - start


def proved(out, status, wanted):
    """Whether the line of pureproof that is wanted came last."""
    return status == 0 and out.splitlines()[-1:] == [wanted]


def verified(out, status):
    """Whether Dafny verified all and found no error."""
    return status == 0 and re.search(r"finished with [1-9]\d* verified, 0 errors$", out, re.MULTILINE) is not None


def version(words):
    """The first number with a point that the words print."""
    found = re.search(r"\d+(\.\d+)+", run(words)[0])
    return found.group() if found else "of unknown version"


def version_of_ours():
    """The script's commit; of another program, which names none, the front of its sum."""
    if os.path.realpath(PROGRAM) == os.path.realpath("pureproof"):
        return f"of {run(['git', 'describe', '--always', '--dirty'])[0].strip() or 'no commit'}"
    with open(PROGRAM, "rb") as file:
        return f"with sum {hashlib.sha256(file.read()).hexdigest()[:16]}"


names = [os.path.basename(path).removesuffix(".dfy") for path in FILES]
proofs = [f"examples/proofs/{name}.scala" for name in names]
run([PROGRAM, proofs[0]])  # the script may unpack the program, once
z3 = f", z3 {version(['z3', '--version'])}" if shutil.which("z3") else ""
print(f"pureproof {version_of_ours()}; Dafny {version([DAFNY, '/compile:0', FILES[0]])}{z3}; {COUNT} runs each")
print("| Program | pureproof | Dafny | Ratio |\n|---|---|---|---|")
below = others = 0
for name, proof, path in zip(names, proofs, FILES):
    with open(proof) as file:
        _, words, wanted = (next(file).removeprefix("// ").rstrip("\n") for _ in range(3))
    ours, theirs, both = [], [], True
    for _ in range(int(COUNT)):
        out, status, seconds = run([PROGRAM, *words.split()[1:]])
        ours.append(seconds)
        both = both and proved(out, status, wanted)
        out, status, seconds = run([DAFNY, "/compile:0", path])
        theirs.append(seconds)
        both = both and verified(out, status)
    mine, other = statistics.median(ours), statistics.median(theirs)
    below, others = below + (both and mine * PART < other), others + (not both)
    mark = "" if both else ", NOT PROVED BY BOTH"
    print(f"| {name} | {mine:.3f} s | {other:.2f} s | {other / mine:.1f}{mark} |", flush=True)
left = [it for it in sorted(os.listdir("examples/proofs")) if it.endswith(".scala") and not it.endswith("_wrong.scala")]
missing = [it for it in left if it.removesuffix(".scala") not in names]
if missing:
    print(f"without a file in Dafny: {', '.join(missing)}")
print(f"{below} of {len(names)} below a twentieth of Dafny's time, {others} not proved by both")
sys.exit(others > 0)
PY
