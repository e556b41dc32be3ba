#!/usr/bin/env bash
# Tries the rows of examples/README.md: `check_examples.sh [PROGRAM]`, where PROGRAM is the built program.
# Below a heading that names a folder, each row of a table is a file of it and a line that has to be printed about it.
# `..` at the line's end stands for any arguments; a line of counts or of a refusal has to be the last one. The status
# has to be that of the last line, and the other stream empty. The words are those of the file's second line where its
# head has some, and then its third line has to be printed as well; else they are the file alone.
# Where the second cell of a row begins with `--`, it is the options that the file's head has.
# Each file has to have one row of what is printed, and a row of its options where its head has some.
# Ends with the number of rows that passed and failed.
set -u
root=$(cd "$(dirname "${BASH_SOURCE[0]}")/.." && pwd)
program=$(readlink -f "${1:-$root/crates/pureproof/out/pureproof}")
page=$root/examples/README.md
if [ ! -x "$program" ]; then
    echo "check_examples: no program at ${1:-crates/pureproof/out/pureproof}" >&2
    exit 2
fi
if [ ! -r "$page" ]; then
    echo "check_examples: no page at $page" >&2
    exit 2
fi
cd "$root" || exit 2
scratch=$(mktemp -d)
trap 'rm -rf "$scratch"' EXIT
: > "$scratch/tried"
: > "$scratch/options"
passed=0
failed=0

fail() {
    failed=$((failed + 1))
    printf 'check_examples: %s: %s\n' "$1" "$2"
}

# words FILE: those of the file's head, or the file alone
words() {
    local second
    second=$(sed -n 2p "$1")
    case $second in
        '// pureproof '*) printf '%s\n' "${second#'// pureproof '}" ;;
        *) printf '%s\n' "$1" ;;
    esac
}

# status_of LINE: the status that comes with this last line
status_of() {
    case $1 in
        'refused: '*) echo 3 ;;
        *' valid, 0 invalid, 0 open, 0 depending') echo 0 ;;
        *' valid, 0 invalid, '*' depending') echo 2 ;;
        *' valid, '*' depending') echo 1 ;;
        *) echo none ;;
    esac
}

# is_printed LINE STREAM: the line is one of the stream, and the last one where it speaks of the whole program
is_printed() {
    local line
    case $1 in
        *', ..')
            while IFS= read -r line; do
                case $line in
                    "${1%..}"?*) return 0 ;;
                esac
            done < "$2"
            return 1
            ;;
        'refused: '* | *' depending') [ "$(tail -n 1 "$2")" = "$1" ] ;;
        *) grep -qxF -e "$1" "$2" ;;
    esac
}

# try FILE LINE: runs the program on the file's words and looks for the line
try() {
    local list status wanted shown empty head
    if grep -qxF -e "$1" "$scratch/tried"; then
        fail "$1" 'a second row'
        return
    fi
    printf '%s\n' "$1" >> "$scratch/tried"
    if [ ! -r "$1" ]; then
        fail "$1" 'no such file'
        return
    fi
    read -r -a list <<< "$(words "$1")"
    "$program" "${list[@]}" > "$scratch/out" 2> "$scratch/err" < /dev/null
    status=$?
    case $2 in
        'refused: '*) shown=$scratch/err empty=$scratch/out ;;
        *) shown=$scratch/out empty=$scratch/err ;;
    esac
    head=$2
    if [ "${list[*]}" != "$1" ] || [ "$(sed -n 2p "$1")" = "// pureproof $1" ]; then
        head=$(sed -n '3s,^// ,,p' "$1")
    fi
    wanted=$(status_of "$(tail -n 1 "$shown")")
    if [ "$status" = "$wanted" ] && [ ! -s "$empty" ] && is_printed "$2" "$shown" && is_printed "$head" "$shown"; then
        passed=$((passed + 1))
    else
        fail "$1" "status $status"
        printf '  wanted:  %s\n' "$2"
        printf '  head:    %s\n' "$head"
        sed 's/^/  out:     /' "$scratch/out"
        sed 's/^/  err:     /' "$scratch/err"
    fi
}

# take_options FILE OPTIONS: compares the options with those of the file's head
take_options() {
    printf '%s\n' "$1" >> "$scratch/options"
    if [ -r "$1" ] && [ "$(words "$1")" = "$2 $1" ]; then
        passed=$((passed + 1))
    else
        fail "$1" "its head has other words than $2"
    fi
}

folder=
while IFS='|' read -r text file told _; do
    case $text in
        '## `'*'/`')
            folder=${text#'## `'}
            folder=${folder%'/`'}
            ;;
    esac
    case $file in
        ' `'*'.scala` ')
            file=${file#' `'}
            file=$folder/${file%'` '}
            told=${told#' `'}
            told=${told%'` '}
            case $told in
                --*) take_options "$file" "$told" ;;
                *) try "$file" "$told" ;;
            esac
            ;;
    esac
done < "$page"

for file in examples/*.scala examples/*/*.scala; do
    grep -qxF -e "$file" "$scratch/tried" || fail "$file" 'no row'
    case $(words "$file") in
        --*) grep -qxF -e "$file" "$scratch/options" || fail "$file" 'no row of its options' ;;
    esac
done

printf '%s passed, %s failed\n' "$passed" "$failed"
[ "$failed" -eq 0 ]
