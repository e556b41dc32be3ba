#!/usr/bin/env bash
# The words that the script `pureproof` answers by itself, the line that it adds where the program refuses others, and
# how it ends where a run is ended. It is started from other folders and through links, and behind changed sources.
# Ends with the number of checks that passed and failed.
set -u
root=$(cd "$(dirname "${BASH_SOURCE[0]}")/.." && pwd)
here=$(mktemp -d)
trap 'rm -rf "$here"' EXIT
cd "$here" || exit 1
passed=0
failed=0

# check NAME STATUS OUT ERR: compares what the last run left in status, out and err
check() {
    if [ "$status" -eq "$2" ] && [ "$(cat out)" = "$3" ] && [ "$(cat err)" = "$4" ]; then
        passed=$((passed + 1))
    else
        failed=$((failed + 1))
        printf 'check_words: %s: status %s, out: %s, err: %s\n' "$1" "$status" "$(cat out)" "$(cat err)"
    fi
}

# holds NAME: counts the last command
holds() {
    if [ $? -eq 0 ]; then
        passed=$((passed + 1))
    else
        failed=$((failed + 1))
        printf 'check_words: %s\n' "$1"
    fi
}

run() {
    "$root/pureproof" "$@" > out 2> err
    status=$?
}

# refused LINE WORD..: the words are refused, and this line is added
refused() {
    run "${@:2}"
    check "the words ${*:2:20}" 4 '' "$(printf 'words refused\npureproof: %s' "$1")"
}

cp "$root"/examples/{or,heap_wrong}.scala .
"$root/pureproof" or.scala > /dev/null 2>&1 # builds the program where that is wanted

# What is answered by the script.
for word in --help -h; do
    run "$word"
    check "$word" 0 "$(cat "$root/scripts/help.txt")" ''
done
# The README has the same words, in a block of its own.
sed -n '/^pureproof \[OPTION/,/^```$/p' "$root/README.md" | sed '$d' > told
head -n "$(wc -l < told)" "$root/scripts/help.txt" | cmp -s - told && [ -s told ]
holds 'the README tells other words than --help'
run --version
{
    printf 'pureproof %s\n' "$(cat "$root/VERSION")"
    . "$root/scripts/program.sh"
    printf 'sources: %s\n' "$(sum_of_sources "$(noted toolchain)")"
    sed -n '/^toolchain: /p' "$release/MADE"
} > told
check --version 0 "$(cat told)" ''
"$root/pureproof" --help >&- 2> /dev/null
[ $? -eq 6 ]
holds '--help into a closed output'

# Lines that are refused.
options='there are --mode, --rounds, --depth, --lemmas, --gates, --order, --function, --fuel and --seed (a FILE of that'
options="$options name stands behind --)"
none='there is no FILE; mode verify takes one to sixteen'
refused "$none"
refused "$none" --
refused "$none" --rounds 2
refused 'there is no FILE; mode list takes one to sixteen' --mode list
refused 'there is no FILE; mode run takes one to sixteen' --mode run --function f
mapfile -t many < <(printf 'or.scala\n%.0s' {1..17})
refused 'there are more than sixteen FILEs; mode verify takes one to sixteen' "${many[@]}"
mapfile -t many < <(printf 'a%s.scala\n' {1..20000})
refused 'there are more than sixteen FILEs; mode list takes one to sixteen' --mode list "${many[@]}"
refused '--help stands alone, without other words' --help or.scala
refused '-h stands alone, without other words' or.scala -h
refused '--version stands alone, without other words' --version --version
refused "there is no option --round; $options" --round 3 or.scala
refused "there is no option --dept=3; $options" --dept=3 or.scala
refused "there is no option --Rounds; $options" --Rounds 3 or.scala
refused "there is no option -r; $options" -r 3 or.scala
refused "there is no option -; $options" - or.scala
refused "there is no option -x.scala; $options" -x.scala
refused '--rounds is given twice' --rounds 3 --rounds=3 or.scala
refused '--mode is given twice' --mode list or.scala --mode list
refused '--rounds wants a value behind it' or.scala --rounds
refused '--rounds wants a value behind it, and -1 begins as an option does (a value can: --rounds=-1)' \
    --rounds -1 or.scala
refused '--function wants a value behind it, and -- begins as an option does (a value can: --function=--)' \
    --mode run --function -- or.scala
range='without sign and leading zeros'
refused "--rounds wants a number from 0 to 12, $range; 13 isn't one" --rounds 13 or.scala
refused "--rounds wants a number from 0 to 12, $range; 03 isn't one" --rounds 03 or.scala
refused "--rounds wants a number from 0 to 12, $range; +3 isn't one" --rounds +3 or.scala
refused "--rounds wants a number from 0 to 12, $range; -1 isn't one" --rounds=-1 or.scala
refused "--rounds wants a number from 0 to 12, $range; '' isn't one" --rounds= or.scala
refused "--rounds wants a number from 0 to 12, $range; or.scala isn't one" --rounds or.scala
refused "--depth wants a number from 1 to 6, $range; 0 isn't one" --depth 0 or.scala
refused "--depth wants a number from 1 to 6, $range; 3\\ 4 isn't one" --depth '3 4' or.scala
refused "--lemmas wants a number from 1 to 1000000, $range; 1000001 isn't one" --lemmas 1000001 or.scala
refused "--lemmas wants a number from 1 to 1000000, $range; 00000001 isn't one" --lemmas 00000001 or.scala
refused "--gates wants a number from 1 to 4000000, $range; 18446744073709551617 isn't one" \
    --gates 18446744073709551617 or.scala
refused "--fuel wants a number from 0 to 100000, $range; 1e3 isn't one" --mode run --function f --fuel 1e3 or.scala
refused "--mode wants verify, list, run or make; Verify isn't one" --mode Verify or.scala
refused "--mode wants verify, list, run or make; or.scala isn't one" --mode or.scala
refused "--order wants one, turns or back; random isn't one" --order random or.scala
refused "--order wants one, turns or back; or.scala isn't one" --order or.scala
refused '--order is given twice' --order one --order=one or.scala
refused '--order is no option of mode list, which takes --rounds, --depth' --mode list --order one or.scala
refused '--order is no option of mode make, which takes --seed, --rounds, --depth, --lemmas, --gates' \
    --mode make --seed 3 --order turns
refused '--function is no option of mode verify, which takes --rounds, --depth, --lemmas, --gates, --order' \
    --function f or.scala
refused '--lemmas is no option of mode list, which takes --rounds, --depth' --mode list --lemmas 5 or.scala
refused '--rounds is no option of mode run, which takes --function, --fuel' --mode run --function f --rounds 3 or.scala
refused 'mode run wants --function NAME, a function without parameters' --mode run or.scala
refused 'there is no function absent without parameters; --mode list prints the names' \
    --mode run --function absent or.scala
refused 'there is no function or without parameters; --mode list prints the names' --mode run --function or or.scala
refused "there is no function '' without parameters; --mode list prints the names" --mode run --function= or.scala
refused 'mode make wants --seed N, a number from 1 to 200' --mode make
refused "--seed wants a number from 1 to 200, $range; 201 isn't one" --mode make --seed 201
refused 'mode make takes no FILE, and or.scala is one' --mode make --seed 3 or.scala
refused '--seed is no option of mode list, which takes --rounds, --depth' --mode list --seed 3 or.scala
refused "word 2 isn't text (UTF-8)" or.scala "$(printf 'a\377.scala')"
refused "word 1 isn't text (UTF-8)" "$(printf 'a\355\240\200.scala')"

# Lines that aren't refused, and what ends otherwise.
valid="$(printf 'or: valid, 1 checks\n1 valid, 0 invalid, 0 open, 0 depending')"
run --rounds=0 --depth 6 --lemmas 1000000 or.scala --gates=4000000 --
check 'a good line' 0 "$valid" ''
for order in one turns back; do
    run --order "$order" or.scala
    check "order $order" 0 "$valid" ''
done
run missing.scala
check 'a missing file' 5 '' 'read fault: missing.scala'
run --mode run --function f missing.scala
check 'a missing file of a run' 5 '' 'read fault: missing.scala'
cp or.scala $'\303\266r \360\235\222\263.scala'
run $'\303\266r \360\235\222\263.scala'
check 'a name with letters of two and four bytes' 0 "$valid" ''
cp or.scala ./--help
run -- --help
check 'a file named as a word of the script' 0 "$valid" ''
"$root/pureproof" /dev/stdin < or.scala > out 2> err
status=$?
check 'a source from standard input' 0 "$valid" ''
printf 'object A {\n  def one(): Int = 1\n}\n' > one.scala
"$root/pureproof" --mode run --function one /dev/stdin < one.scala > out 2> err
status=$?
check 'a run from standard input' 0 'one = 1' ''
"$root/pureproof" --mode run --function one one.scala <&- > out 2> err
status=$?
check 'a run without standard input' 0 'one = 1' ''

# Runs that are ended. The first takes the place of the script, the second one is below it.
cat > long.scala <<'SCALA'
object Long {
  def fib(n: Int): Int = { decreases(n); if (n <= 1) 1 else fib(n - 1) + fib(n - 2) }
  def long(): Int = fib(60)
}
SCALA
mkfifo never
# ended NAME SIGNAL STATUS WORD..: the script ends with the status when it gets the signal, and so does what it runs
ended() {
    local child below
    (trap - INT QUIT && exec "$root/pureproof" "${@:4}") > out 2> err <> never &
    child=$!
    for _ in {1..100}; do
        sleep 0.05
        below=$(cat "/proc/$child/task/$child/children")
        case $(readlink "/proc/$child/exe") in
            */pureproof) break ;;
        esac
        if [ -n "$below" ]; then
            case $(readlink "/proc/${below%% *}/exe") in
                */pureproof) break ;;
            esac
        fi
    done
    kill -s "$2" "$child"
    wait "$child" 2> /dev/null
    status=$?
    check "$1, signal $2" "$3" '' ''
    [ -z "$below" ] || ! kill -0 "$below" 2> /dev/null
    holds "$1, signal $2: the program goes on"
}
for signal in 'INT 130' 'TERM 143' 'HUP 129' 'QUIT 131' 'KILL 137'; do
    # shellcheck disable=SC2086
    ended 'a run that reads' $signal /dev/stdin
done
for signal in 'INT 130' 'TERM 143' 'HUP 129' 'QUIT 131'; do
    # shellcheck disable=SC2086
    ended 'a run of a function' $signal --mode run --function long long.scala
done
{ (ulimit -t 1 && "$root/pureproof" --mode run --function long long.scala) > out; } 2> /dev/null
[ $? -gt 128 ]
holds 'a run without more time'

# Where it is started from.
mkdir 'a folder' 'a folder/b'
ln -s "$root/pureproof" 'a folder/link'
ln -s ../link 'a folder/b/further'
ln -s "$root" 'a folder/root'
for way in 'a folder/link' 'a folder/b/further' 'a folder/root/pureproof' \
    "$here/a folder/root/examples/../pureproof"; do
    "$way" or.scala > out 2> err
    status=$?
    check "started as $way" 0 "$valid" ''
done
(PATH="$here/a folder:$PATH" && CDPATH=/ && export CDPATH && cd 'a folder/b' && link ../../or.scala) > out 2> err
status=$?
check 'started by its name' 0 "$valid" ''
(cd "$root" && bash pureproof "$here/or.scala") > out 2> err
status=$?
check 'started by bash' 0 "$valid" ''

# A checkout in a folder with blanks; what it unpacked is taken again, until a source changes.
if bash "$root/scripts/check_release.sh" --sums | grep -q 'the same sources'; then
    tar -C "$root" --exclude=out --exclude=.git -cf - . | (mkdir 'a copy' && tar -C 'a copy' -xf -)
    kept='a copy/crates/pureproof/out/kept/pureproof'
    mkdir tools
    for tool in bash awk cat chmod cut find gzip mkdir mv readlink rm sed sha256sum sort touch xargs; do
        ln -s "$(command -v "$tool")" "tools/$tool"
    done
    # copied NAME STATUS OUT ERR: what the copy answers on a machine without the toolchain
    copied() {
        PATH=$here/tools 'a copy/pureproof' or.scala > out 2> err
        status=$?
        check "$@"
    }
    nothing='pureproof: no program was built or kept for these sources, and to build it the command rt is needed'
    copied 'a copy' 0 "$valid" ''
    sleep 2.1
    copied 'a copy, once more' 0 "$valid" ''
    before=$(stat -c %y "$kept")
    copied 'a copy, a third time' 0 "$valid" ''
    [ "$(stat -c %y "$kept")" = "$before" ]
    holds 'the program is unpacked each time'
    touch 'a copy/crates/pp_text/src/lib.rt'
    copied 'a source that is touched' 0 "$valid" ''
    sed -i 's,^//! .*,& ,;t' 'a copy/crates/pp_text/src/lib.rt'
    copied 'a source that is changed' 70 '' "$nothing"
    cp -p "$root/crates/pp_text/src/lib.rt" 'a copy/crates/pp_text/src/lib.rt'
    copied 'a source that is put back' 0 "$valid" ''
    cp -p "$root/crates/pp_text/src/lib.rt" other && echo '// other' >> other && touch -d '2020-01-01' other
    mv other 'a copy/crates/pp_text/src/lib.rt'
    copied 'a source with an old date' 70 '' "$nothing"
    cp "$root/crates/pp_text/src/lib.rt" 'a copy/crates/pp_text/src/lib.rt'
    copied 'a source that is put back again' 0 "$valid" ''
    : > 'a copy/crates/pp_text/proofs/More.antt'
    copied 'a proof that is added' 70 '' "$nothing"
    rm 'a copy/crates/pp_text/proofs/More.antt'
    copied 'a proof that is taken away' 0 "$valid" ''
    mv 'a copy/crates/pp_text/specs' specs
    copied 'definitions that are gone' 70 '' "$nothing"
    mv specs 'a copy/crates/pp_text/specs'
    copied 'definitions that are back' 0 "$valid" ''
    echo >> 'a copy/crates.txt'
    copied 'a changed list of crates' 70 '' "$nothing"
    cp "$root/crates.txt" 'a copy/'
    mv 'a copy' 'another copy' && ln -s 'another copy' 'a copy'
    copied 'a copy that is moved' 0 "$valid" ''
    sed -i 's/^sources: .*/sources: 0/' 'a copy/release/MADE'
    copied 'a kept program of other sources' 70 '' "$nothing"
fi

printf '%s passed, %s failed\n' "$passed" "$failed"
[ "$failed" -eq 0 ]
