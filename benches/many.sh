#!/usr/bin/env bash
# Many files, each a program of its own: 200 copies of the examples under `bugs` and `proofs`, one run a file, 1, 2 and
# 4 of them at a time. Prints the milliseconds of the clock, the median of three turns, and how many times as fast as one
# at a time; all answers have to be the same bytes. `many.sh [PROGRAM]`; it wants a machine with nothing beside it.
set -u
root=$(cd "$(dirname "${BASH_SOURCE[0]}")/.." && pwd)
program=$(readlink -f "${1:-$root/pureproof}")
here=$(mktemp -d)
trap 'rm -rf "$here"' EXIT
cd "$here" || exit 1

mkdir src
examples=("$root"/examples/bugs/*.scala "$root"/examples/proofs/*.scala)
for n in {1..200}; do
    cp "${examples[(n - 1) % ${#examples[@]}]}" "src/$n.scala"
done
cat > one.sh <<'SH'
name=${2##*/}
"$1" "$2" > "$3/$name.out" 2> "$3/$name.err"
echo $? > "$3/$name.status"
SH
"$program" src/1.scala > /dev/null 2>&1 # unpacks or builds the program where that is wanted

# milliseconds COUNT: those of all files, so many at a time
milliseconds() {
    local begun=${EPOCHREALTIME/./}
    rm -rf out && mkdir out
    find src -name '*.scala' -print0 | xargs -0 -P "$1" -I {} sh one.sh "$program" {} out
    echo $(((${EPOCHREALTIME/./} - begun) / 1000))
    [ -d first ] || cp -r out first
    diff -rq first out >&2
}

alone=
for count in 1 2 4; do
    median=$(for _ in 1 2 3; do milliseconds "$count"; done | sort -n | sed -n 2p)
    alone=${alone:-$median}
    awk -v count="$count" -v median="$median" -v alone="$alone" \
        'BEGIN { printf "%s at a time: %s ms, %.2f times as fast\n", count, median, alone / median }'
done
