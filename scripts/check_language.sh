#!/usr/bin/env bash
# Tries the examples of pages: `check_language.sh [PROGRAM [PAGE..]]`, where PROGRAM is the built program, and without a
# PAGE the pages are the README and those of docs/ that are for users. Each page has a folder of its own, in which
# `examples` is that of the repository. In a page
#   ```scala name=FILE   holds the source FILE; ```make name=FILE and ```bash name=FILE hold another file,
#   ```sh                holds a command a line, in which `pureproof` and `./pureproof` are the program,
#   ```sh with=TOOL      the same, which is passed over with what it prints where this tool is missing,
#   ```text status=N     holds what these commands print, on standard output where N is 0 to 2, else on standard error,
#                        and the status with which the command ends, or one for each, as `status=0,3`; the other stream
#                        stays empty.
# Where no command stands between a source and what is printed, it is `pureproof FILE`. Other blocks are passed over.
# Ends with the number of blocks of text that passed and failed.
set -u
root=$(cd "$(dirname "${BASH_SOURCE[0]}")/.." && pwd)
program=$(readlink -f "${1:-$root/crates/pureproof/out/pureproof}")
if [ ! -x "$program" ]; then
    echo "check_language: no program at ${1:-crates/pureproof/out/pureproof}" >&2
    exit 2
fi
pages=()
for page in "${@:2}"; do
    pages+=("$(readlink -f "$page")")
done
if [ $# -lt 2 ]; then
    pages=("$root/README.md" "$root"/docs/{TUTORIAL,VERDICTS,LANGUAGE,COMING,CI}.md)
fi
for page in "${pages[@]}"; do
    if [ ! -r "$page" ]; then
        echo "check_language: no page at $page" >&2
        exit 2
    fi
done
scratch=$(mktemp -d)
trap 'rm -rf "$scratch"' EXIT
mkdir "$scratch/bin"
ln -s "$program" "$scratch/bin/pureproof"
export PATH=$scratch/bin:$PATH
: > "$scratch/commands"
passed=0
failed=0

fail() {
    failed=$((failed + 1))
    printf 'check_language: %s: line %s: %s\n' "${page##*/}" "$number" "$1"
}

# try STATUSES: runs the last commands and compares them with the last block of text
try() {
    local command statuses=
    : > "$scratch/out"
    : > "$scratch/err"
    while IFS= read -r command; do
        bash -c "$command" >> "$scratch/out" 2>> "$scratch/err" < /dev/null
        statuses=$statuses,$?
    done < "$scratch/commands"
    statuses=${statuses#,}
    case $1 in
        *[012]) shown=$scratch/out empty=$scratch/err ;;
        *) shown=$scratch/err empty=$scratch/out ;;
    esac
    if [ "$statuses" = "$1" ] && cmp -s "$scratch/text" "$shown" && [ ! -s "$empty" ]; then
        passed=$((passed + 1))
    else
        fail "wanted status $1, got $statuses"
        sed 's/^/  command: /' "$scratch/commands"
        sed 's/^/  wanted:  /' "$scratch/text"
        sed 's/^/  out:     /' "$scratch/out"
        sed 's/^/  err:     /' "$scratch/err"
    fi
}

# Tries the blocks of the page in a new folder.
read_page() {
    local line name wanted
    mkdir "$scratch/folder" && cd "$scratch/folder" || exit 2
    ln -s "$root/examples" examples && ln -s "$program" pureproof
    number=0
    inside=no
    missing=no
    names=' '
    while IFS= read -r line || [ -n "$line" ]; do
        number=$((number + 1))
        if [ "$inside" = no ]; then
            case $line in
                '```scala name='* | '```make name='* | '```bash name='*)
                    name=${line#*name=}
                    case $name in
                        '' | *[!A-Za-z0-9_.]*)
                            fail "no name of a file: $name"
                            name=unnamed
                            ;;
                    esac
                    case $names in
                        *" $name "*) fail "a second source of the name $name" ;;
                    esac
                    names="$names$name "
                    inside=scala
                    missing=no
                    : > "$name"
                    printf 'pureproof %s\n' "$name" > "$scratch/commands"
                    ;;
                '```sh' | '```sh with='*)
                    inside=sh
                    missing=no
                    : > "$scratch/commands"
                    case $line in
                        *=*) command -v "${line#*=}" > /dev/null || missing=yes ;;
                    esac
                    ;;
                '```text status='*)
                    wanted=${line#'```text status='}
                    inside=text
                    : > "$scratch/text"
                    ;;
                '```'*) inside=other ;;
            esac
        elif [ "$line" = '```' ]; then
            if [ "$inside" = text ] && [ "$missing" = no ]; then
                try "$wanted"
            fi
            inside=no
        else
            case $inside in
                scala) printf '%s\n' "$line" >> "$name" ;;
                sh) printf '%s\n' "$line" >> "$scratch/commands" ;;
                text) printf '%s\n' "$line" >> "$scratch/text" ;;
            esac
        fi
    done < "$page"
    if [ "$inside" != no ]; then
        fail 'a block that nothing ends'
    fi
    cd "$scratch" && rm -r folder
}

for page in "${pages[@]}"; do
    read_page
done
if [ "$passed" -eq 0 ]; then
    fail 'no example was tried'
fi

printf '%s passed, %s failed\n' "$passed" "$failed"
[ "$failed" -eq 0 ]
