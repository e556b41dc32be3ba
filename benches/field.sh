#!/usr/bin/env bash
# Runs each program of examples/field with default words, and prints rows of the tables of its page: each program
# (lines, functions, valid, invalid, open, depending, seconds, megabytes), each function that is left open, and each
# file with a bug (what is found invalid there); then the sums. Seconds are those of the processor (user), since other
# programs may run beside; a file is ended after 120 of them.
# It wants python3. The program is ./pureproof; another one in its place is named by PUREPROOF.
set -eu
root=$(cd "$(dirname "${BASH_SOURCE[0]}")/.." && pwd)
program=$(readlink -f "${PUREPROOF:-$root/pureproof}")
cd "$root"
python3 - "$program" examples/field/*.scala <<'PY'
import os, re, resource, statistics, subprocess, sys

PROGRAM, *FILES = sys.argv[1:]
SECONDS = 120
OPEN = re.compile(r"(\w+): open at round (\d+), (\w+) at \S+, (\w+)")
SUM = re.compile(r"(\d+) valid, (\d+) invalid, (\d+) open, (\d+) depending")


def run(path):
    """What is printed, the seconds and the megabytes."""
    limit = lambda: resource.setrlimit(resource.RLIMIT_CPU, (SECONDS, SECONDS))
    process = subprocess.Popen([PROGRAM, path], stdout=subprocess.PIPE, text=True, preexec_fn=limit)
    text = process.stdout.read()
    _, _, used = os.wait4(process.pid, 0)
    return text.splitlines(), used.ru_utime, used.ru_maxrss // 1024


subprocess.run([PROGRAM, FILES[0]], stdout=subprocess.DEVNULL)  # the script may unpack the program, once
rows, left, found, times = [], [], [], []
sums, whole = [0] * 5, 0
for path in FILES:
    name = os.path.basename(path).removesuffix(".scala")
    lines, seconds, megabytes = run(path)
    times.append(seconds)
    met = SUM.fullmatch(lines[-1]) if lines else None
    if not met:
        rows.append(f"| `{name}` | no sum: {lines[-1] if lines else 'nothing'} |")
        continue
    numbers = [int(number) for number in met.groups()]
    if "_bug" in name:
        bugs = [line.split(":")[0] for line in lines if ": invalid " in line or ": invalid," in line]
        found.append(f"| `{name}` | {', '.join(f'`{bug}`' for bug in bugs) or 'nothing'} |")
        continue
    with open(path) as file:
        size = len(file.readlines())
    counts = [sum(numbers), *numbers]
    sums = [a + b for a, b in zip(sums, counts)]
    whole += numbers[0] == counts[0]
    shown = " | ".join(map(str, counts))
    rows.append(f"| `{name}` | {size} | {shown} | {seconds:.2f} | {megabytes} |")
    left += [(name, *OPEN.match(line).groups()) for line in lines if OPEN.match(line)]
print("| File | Lines | Functions | Valid | Invalid | Open | Depends | Seconds | MB |")
print("|---|---|---|---|---|---|---|---|---|")
print("\n".join(rows))
print(f"| all {len(rows)} | | {' | '.join(map(str, sums))} | | |\n\n{whole} programs are proved whole.")
print("\n| File | Function | Check | Round | Reason |\n|---|---|---|---|---|")
for name, function, round_, check, reason in left:
    print(f"| `{name}` | `{function}` | {check} | {round_} | {reason} |")
print("\n| File with a bug | Found invalid |\n|---|---|")
print("\n".join(found))
print(f"\n{sum(times):.1f} seconds in all, {statistics.median(times):.2f} in the median, {max(times):.2f} at most")
PY
