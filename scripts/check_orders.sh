#!/usr/bin/env bash
# Tries whether the order in which checks are worked on changes what is printed: `check_orders.sh [PROGRAM]`, where
# PROGRAM is the built program. The gate doesn't run it. Each file below `examples/`, with the words of its second line
# where it has some, and each row of `pp_answer_cases` in mode `verify` is run without `--order`, with `--order turns`
# and with `--order back`. The status and both streams have to be the same; where they aren't, what differs is printed.
# Ends with the number of files and rows that passed and failed.
set -u
root=$(cd "$(dirname "${BASH_SOURCE[0]}")/.." && pwd)
program=$(readlink -f "${1:-$root/crates/pureproof/out/pureproof}")
if [ ! -x "$program" ]; then
    echo "check_orders: no program at ${1:-crates/pureproof/out/pureproof}" >&2
    exit 2
fi
cd "$root" || exit 2
scratch=$(mktemp -d)
trap 'rm -rf "$scratch"' EXIT
# Sources may be nested deeply, as the script `pureproof` knows.
ulimit -S -s hard 2> /dev/null
passed=0
failed=0

# run NAME WORD..: what is printed, with the status behind it, goes to the file of this name
run() {
    "$program" "${@:2}" > "$scratch/$1" 2>&1
    printf 'status %s\n' $? >> "$scratch/$1"
}

# try TITLE WORD..: runs the words in each order, and compares
try() {
    local order same=yes
    run one "${@:2}"
    for order in turns back; do
        run "$order" --order "$order" "${@:2}"
        if ! cmp -s "$scratch/one" "$scratch/$order"; then
            same=no
            printf 'check_orders: %s, --order %s:\n' "$1" "$order"
            diff "$scratch/one" "$scratch/$order"
        fi
    done
    if [ "$same" = yes ]; then
        passed=$((passed + 1))
    else
        failed=$((failed + 1))
    fi
}

# The files.
while IFS= read -r file; do
    words=$(sed -n '2s|^// pureproof ||p' "$file")
    case " ${words:-$file} " in
        *' --mode '* | *' --mode='*) continue ;;
    esac
    # shellcheck disable=SC2086
    try "$file" ${words:-$file}
done < <(find examples -name '*.scala' | LC_ALL=C sort)

# The rows: words, `|`, and sources with `\s` between them, in which `\x` stands for the byte 255.
number=0
while IFS= read -r row; do
    number=$((number + 1))
    words=${row%%|*}
    case $row in
        *'|'*) ;;
        *) continue ;;
    esac
    case " $words " in
        *' --mode '* | *' --mode='* | *' --order '* | *' --order='*) continue ;;
    esac
    rm -f "$scratch"/row_*
    paths=()
    rest=${row#*|}\\s
    while [ -n "$rest" ]; do
        path=$(printf '%s/row_%02d.scala' "$scratch" "${#paths[@]}")
        source=${rest%%\\s*}
        printf '%b' "${source//\\x/\\0377}" > "$path"
        paths+=("$path")
        rest=${rest#*\\s}
    done
    # shellcheck disable=SC2086
    try "row $number" $words "${paths[@]}"
done < crates/pp_answer_cases/stdin

printf '%s passed, %s failed\n' "$passed" "$failed"
[ "$failed" -eq 0 ]
