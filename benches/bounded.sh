#!/usr/bin/env bash
# Measures the calls of bounded trees on unknown trees: lists of numbers at height 6, and four constructors with three
# recursive fields at height 4. Prints the rows of a table: the gates that one call adds, how many it may add at most,
# and the seconds of 100 times the two trees and the call (of `unknown`, the two trees alone). The choice of `merge` is
# an input.
# It wants crates/pp_bounded_cases/out/pp_bounded_cases, which `rt run` in that crate's folder leaves.
set -eu
root=$(cd "$(dirname "${BASH_SOURCE[0]}")/.." && pwd)
program=$root/crates/pp_bounded_cases/out/pp_bounded_cases
TIMEFORMAT=%R

# The allowance of a call, from the bits and the nodes of a full tree: a list has 34 bits and a node for each step of
# its height; a tree of the other type has 37 bits and a node, and three trees below.
allowance() {
    local bits=$((34 * 6)) nodes=6
    if [ "$1" = wide ]; then
        bits=$((37 * 40)) nodes=40
    fi
    case $2 in
        unknown | equal) echo $((4 * (32 + bits))) ;;
        merge) echo $((32 + bits)) ;;
        below) echo $((64 + 4 * (32 + bits) * (1 + nodes))) ;;
        read) echo 0 ;;
    esac
}

printf '| Trees | Call | Gates | Allowed | 100 times, s |\n|---|---|---|---|---|\n'
for case in lists wide; do
    for call in unknown equal merge below read; do
        read -r trees _ _ gates _ < <("$program" <<< "$case $call 1")
        # The constant, the input for the choice and two trees.
        [ "$call" != unknown ] || gates=$(((trees - 2) / 2))
        seconds=$( { time "$program" <<< "$case $call 100" > /dev/null; } 2>&1)
        printf '| %s | `%s` | %s | %s | %s |\n' "$case" "$call" "$gates" "$(allowance "$case" "$call")" "$seconds"
    done
done
