#!/usr/bin/env bash
# What no proof and no test of the gate shows: the program as a user starts it, on real files, outputs and faults.
# Ends with the number of checks that passed and failed.
set -u
root=$(cd "$(dirname "${BASH_SOURCE[0]}")/.." && pwd)
here=$(mktemp -d)
trap 'rm -rf "$here"' EXIT
cd "$here" || exit 1
passed=0
failed=0

# check NAME STATUS OUT ERR: compares what the last run left in status, out and err. Where words were refused, of err the
# first line is compared, which is the program's: scripts/check_words.sh has the one that the script adds.
check() {
    if [ "$status" -eq 4 ]; then
        head -n 1 err > first && mv first err
    fi
    if [ "$status" -eq "$2" ] && [ "$(cat out)" = "$3" ] && [ "$(cat err)" = "$4" ]; then
        passed=$((passed + 1))
    else
        failed=$((failed + 1))
        printf 'check_program: %s: status %s, out: %s, err: %s\n' "$1" "$status" "$(cat out)" "$(cat err)"
    fi
}

run() {
    "$root/pureproof" "$@" > out 2> err
    status=$?
}

cp "$root"/examples/*.scala .
"$root/pureproof" or.scala > /dev/null 2>&1 # builds the program where that is wanted

run or.scala
check 'a valid function' 0 "$(printf 'or: valid, 1 checks\n1 valid, 0 invalid, 0 open, 0 depending')" ''
run or_wrong.scala
check 'an invalid function' 1 \
    "$(printf 'or: invalid, postcondition at 1:2:63, a = true, b = false\n0 valid, 1 invalid, 0 open, 0 depending')" ''
run heap.scala
check 'a function that calls another' 0 \
    "$(printf 'parent: valid, 1 checks\nleft: valid, 2 checks\n2 valid, 0 invalid, 0 open, 0 depending')" ''
run heap_wrong.scala
check 'a call of an invalid function' 1 "$(printf '%s\n' 'parent: invalid, postcondition at 1:6:5, i = 0' \
    'left: depends on parent, 2 checks' '0 valid, 1 invalid, 0 open, 1 depending')" ''
run --rounds 0 heap.scala
check 'an open function' 2 "$(printf '%s\n' 'parent: valid, 1 checks' \
    'left: open at round 0, postcondition at 1:12:5, rounds' '1 valid, 0 invalid, 1 open, 0 depending')" ''
run refused.scala
check 'a refused source' 3 '' 'refused: syntax at 1:1:11'
run
check 'no words' 4 '' 'words refused'
run --absent or.scala
check 'an option' 4 '' 'words refused'
run "$(printf 'a\377.scala')"
check 'a word that is no text' 4 '' 'words refused'
run missing.scala
check 'a missing file' 5 '' 'read fault: missing.scala'
mkdir folder
run folder
check 'a folder' 5 '' 'read fault: folder'
if [ "$(id -u)" -ne 0 ]; then
    cp or.scala unreadable.scala
    chmod 000 unreadable.scala
    run unreadable.scala
    check 'an unreadable file' 5 '' 'read fault: unreadable.scala'
fi
head -c 262145 /dev/zero | tr '\0' ' ' > long.scala
run long.scala
check 'a file that is too long' 3 '' 'refused: too long source 1'

cat > edge.scala <<'SOURCE'
object A {
  def edge(): Int = Int.MinValue / -1 + -7 % 3
  def e[A](): Int = 1
}
SOURCE
run --mode run --function edge edge.scala
check 'a run' 0 'edge = 2147483647' ''
run --mode run '--function=e[Int]' edge.scala
check 'a run of an instance' 0 'e[Int] = 1' ''
run --mode run --function absent edge.scala
check 'a run of no function' 4 '' 'words refused'
printf 'object B {\n  sealed abstract class T\n  case class C(n: Int) extends T\n}\n' > types.scala
printf 'object D {\n  import B._\n  def c(): T = C(7)\n}\n' > uses.scala
run --mode run --function c uses.scala types.scala
check 'two sources' 0 'c = C(7)' ''
run --mode run --function c uses.scala absent.scala
check 'a missing second file' 5 '' 'read fault: absent.scala'
run absent.scala missing.scala
check 'two missing files' 5 '' 'read fault: absent.scala'
run long.scala missing.scala
check 'a file that is too long before a missing one' 3 '' 'refused: too long source 1'
cp edge.scala ./-x
run --mode=run --function=edge -- -x
check 'a file named as an option' 0 'edge = 2147483647' ''
sed 's/$/\r/' edge.scala > crlf.scala
run --mode run --function edge crlf.scala
check 'carriage returns' 0 'edge = 2147483647' ''
sixteen=()
for n in 01 02 03 04 05 06 07 08 09 10 11 12 13 14 15 16; do
    printf 'object O%s {\n  def f%s(): Int = %s\n}\n' "$n" "$n" "$((10#$n))" > "many$n.scala"
    sixteen+=("many$n.scala")
done
run --mode run --function f16 "${sixteen[@]}"
check 'sixteen sources' 0 'f16 = 16' ''
run --mode run --function f16 "${sixteen[@]}" edge.scala
check 'seventeen sources' 4 '' 'words refused'

run --mode make --seed 3
check 'a made source' 0 "$(printf 'made 6 functions\n6 valid, 0 invalid, 0 open, 0 depending')" ''
for _ in 1 2; do
    run --mode make --seed 40
    check 'a made source of forty numbers' 0 \
        "$(printf 'made 80 functions\n80 valid, 0 invalid, 0 open, 0 depending')" ''
done
begun=$SECONDS
run --mode make --seed 200
check 'the longest made source' 0 "$(printf 'made 400 functions\n400 valid, 0 invalid, 0 open, 0 depending')" ''
if [ $((SECONDS - begun)) -gt 60 ]; then
    failed=$((failed + 1))
    printf 'check_program: the longest made source: %s seconds\n' "$((SECONDS - begun))"
fi
run --mode make --seed 1 --depth 6 --rounds 12 --lemmas 1000000 --gates 4000000
check 'a made source within the widest limits' 0 \
    "$(printf 'made 2 functions\n2 valid, 0 invalid, 0 open, 0 depending')" ''
run --mode make --seed 1 --gates 1
check 'a made source within few gates' 2 "$(printf 'made 2 functions\n0 valid, 0 invalid, 2 open, 0 depending')" ''
for words in '' '--seed 0' '--seed 201' '--seed 03' '--seed 3 or.scala' '--seed 3 --fuel 3'; do
    # shellcheck disable=SC2086
    run --mode make $words
    check "refused words of mode make: $words" 4 '' 'words refused'
done
run --mode list --seed 3 or.scala
check 'a seed in mode list' 4 '' 'words refused'

# a run of 100,000 calls that are nested, and a result of as many levels, with a stack of 8 MB
ulimit -S -s 8192
cat > levels.scala <<'SCALA'
object Levels {
  sealed abstract class L
  case class Cons(head: Int, tail: L) extends L
  case class Nil() extends L
  def upTo(n: Int): L = {
    require(0 <= n)
    decreases(n)
    if (n == 0) Nil() else Cons(n, upTo(n - 1))
  }
  def printed(): L = upTo(99998)
}
SCALA
run --mode run --function printed --fuel 99998 levels.scala
check 'one call too deep' 2 'printed needs more than 99998 nested calls' ''
run --mode run --function printed --fuel 100000 levels.scala
check 'a result of 100,000 levels' 0 "$(
    printf 'printed = '
    seq 99998 -1 1 | sed 's/.*/Cons(&, /' | tr -d '\n'
    printf 'Nil()'
    printf ')%.0s' $(seq 99998)
)" ''
run --mode run --function printed --fuel 100001 levels.scala
check 'more fuel than there is' 4 '' 'words refused'

: > out
if [ -w /dev/full ]; then
    "$root/pureproof" or.scala > /dev/full 2> err
    status=$?
    check 'a full device' 6 '' 'write fault'
fi
"$root/pureproof" or.scala >&- 2> err
status=$?
check 'a closed output' 6 '' 'write fault'

# The kept program, in a fresh checkout on a machine without the toolchain, if it was made from these sources.
if bash "$root/scripts/check_release.sh" --sums | grep -q 'the same sources'; then
    mkdir fresh tools
    tar -C "$root" --exclude=out --exclude=.git -cf - . | tar -C fresh -xf -
    for tool in bash awk cat chmod cut find gzip mkdir mv readlink rm sed sha256sum sort touch xargs; do
        ln -s "$(command -v "$tool")" "tools/$tool"
    done
    fresh() {
        PATH=$here/tools fresh/pureproof "$@" > out 2> err
        status=$?
    }
    fresh heap_wrong.scala
    check 'the kept program' 1 "$(printf '%s\n' 'parent: invalid, postcondition at 1:6:5, i = 0' \
        'left: depends on parent, 2 checks' '0 valid, 1 invalid, 0 open, 1 depending')" ''
    fresh or.scala
    check 'the kept program once more' 0 "$(printf 'or: valid, 1 checks\n1 valid, 0 invalid, 0 open, 0 depending')" ''
    nothing='pureproof: no program was built or kept for these sources, and to build it the command rt is needed'
    rm -r fresh/crates/pureproof/out
    head -c 1000 "$root/release/pureproof.gz" > fresh/release/pureproof.gz
    fresh or.scala
    check 'a damaged kept program' 70 '' "$(printf '%s\n' 'pureproof: the kept program is damaged, and is not run' "$nothing")"
    cp "$root/release/pureproof.gz" fresh/release/
    echo '// changed' >> fresh/crates/pureproof/src/main.rt
    fresh or.scala
    check 'a kept program of other sources' 70 '' "$nothing"
fi

printf '%s passed, %s failed\n' "$passed" "$failed"
[ "$failed" -eq 0 ]
