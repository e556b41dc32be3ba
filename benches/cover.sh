#!/usr/bin/env bash
# Times whether matches are covered: 512 cases over 64 constructors with 16 fields, 10,000 numbers, a row of 16 truth
# values, 20 rows that each look into one pair of 16, and pigeons in holes, where one hole more takes about ten times
# longer. The source of the datatypes is read, typed and planned in each of these times.
# It wants crates/pp_program_cases/out/pp_program_cases, which `rt run` in that crate's folder leaves.
set -eu
root=$(cd "$(dirname "${BASH_SOURCE[0]}")/.." && pwd)
source=$root/crates/pp_program_cases/data/coverage.scala
TIMEFORMAT='%R s'
while read -r match; do
    time "$root/crates/pp_program_cases/out/pp_program_cases" "coverage $source $match"
done <<'CASES'
wide 512
literals 10000
booleans 16
pairs 20
pigeons 4
pigeons 5
pigeons 6
CASES
