#!/usr/bin/env bash
# Times building a circuit of 2,000,000 gates, asking for each gate twice, making the clauses, and a chain of 500
# products of 32 bits; and shows the most memory that was held. It wants crates/pp_circuit_cases/out/pp_circuit_cases,
# which `rt run` in that crate's folder leaves.
set -eu
root=$(cd "$(dirname "${BASH_SOURCE[0]}")/.." && pwd)
for work in "gates 2000000" "shared 2000000" "clauses 2000000" "products 500"; do
    for _ in 1 2 3; do
        python3 - "$root/crates/pp_circuit_cases/out/pp_circuit_cases" "$work" <<'PY'
import resource, subprocess, sys, time
start = time.monotonic()
text = subprocess.run(sys.argv[1:], capture_output=True, text=True, check=True).stdout.splitlines()[-1]
seconds = time.monotonic() - start
used = resource.getrusage(resource.RUSAGE_CHILDREN)
print(f"{sys.argv[2]}: {text}: {seconds:.2f} s, {used.ru_utime + used.ru_stime:.2f} s of a processor, {used.ru_maxrss // 1024} MB")
PY
    done
done
