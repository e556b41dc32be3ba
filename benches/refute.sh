#!/usr/bin/env bash
# Times the checker of logs on a chain of 1,000,000 steps over clauses of ten literals; the making of the log, and of its
# text, which is read, is included.
# It wants crates/pp_circuit_cases/out/pp_circuit_cases, which `rt run` in that crate's folder leaves.
set -eu
root=$(cd "$(dirname "${BASH_SOURCE[0]}")/.." && pwd)
for _ in 1 2 3; do
    TIMEFORMAT='%R s'
    time "$root/crates/pp_circuit_cases/out/pp_circuit_cases" 'solver /dev/stdin' <<< "ring 1000000"
done
