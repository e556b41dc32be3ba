#!/usr/bin/env bash
# What the gate costs: the lines and the processor minutes of each crate, as the table of docs/ARCHITECTURE.md.
#
#   costs.sh record LOG [COMMAND ..]   runs the command (rt ci where none is given), and notes in LOG, each second, how
#                                      much processor time each check of the prover has used: its process, its crate,
#                                      whether it is a proof, a proof with tests or a try of an edit, and its seconds
#   costs.sh watch LOG                 notes the same until it is ended, for what runs meanwhile
#   costs.sh table LOG                 prints the table of what LOG has
#   costs.sh short LOG                 prints it in few lines: crate, and the minutes of its proof, tests and edits
set -u
root=$(cd "$(dirname "${BASH_SOURCE[0]}")/.." && pwd)

# The checks that run now: those processes of the prover that were started by none of its own.
sample() {
    local process parent line words crate kind place
    for process in /proc/[0-9]*; do
        mapfile -d '' -t words 2> /dev/null < "$process/cmdline" || continue
        [[ ${words[0]:-} == */rattle && ${words[1]:-} =~ ^(check|build)$ ]] || continue
        line=$(< "$process/stat") 2> /dev/null || continue
        line=${line##*) }
        read -ra fields <<< "$line"
        parent=$(tr '\0' ' ' 2> /dev/null < "/proc/${fields[1]}/cmdline") || continue
        [[ $parent =~ /rattle\ (check|build) ]] && continue
        crate=${words[3]:-}
        [ -n "$crate" ] || continue
        place=$(readlink "$process/cwd") || continue
        [[ $place == "$root"/* || $place == */rt-edit* ]] || continue
        kind=proof
        [[ " ${words[*]} " == *' --test '* ]] && kind=tests
        [[ $place == */rt-edit* ]] && kind=edits
        printf '%s %s %s %s\n' "${process#/proc/}" "$crate" "$kind" \
            $(((fields[11] + fields[12] + fields[13] + fields[14]) / ticks))
    done
}

watch() {
    ticks=$(getconf CLK_TCK)
    : > "$1"
    while true; do
        sample >> "$1"
        sleep 1
    done
}

record() {
    local log=$1 watcher status
    shift
    [ $# -gt 0 ] || set -- rt ci
    watch "$log" &
    watcher=$!
    "$@"
    status=$?
    kill "$watcher"
    return "$status"
}

# The lines of a crate's src, specs and proofs.
lines_of() {
    local part
    for part in src specs proofs; do
        find "$root/crates/$1/$part" \( -name '*.rt' -o -name '*.antt' \) -exec cat {} + 2> /dev/null | wc -l
    done | paste -sd' '
}

# The minutes of each crate, of its proof, tests and edits, and those of all.
minutes() {
    awk '{ if ($4 > most[$1 " " $2 " " $3]) most[$1 " " $2 " " $3] = $4 }
        END { for (key in most) { split(key, part, " "); spent[part[2] " " part[3]] += most[key]; seen[part[2]] = 1
                all[part[3]] += most[key] }
            for (crate in seen) printf "%s %.1f %.1f %.1f\n", crate, spent[crate " proof"] / 60,
                spent[crate " tests"] / 60, spent[crate " edits"] / 60
            printf "~all %.1f %.1f %.1f\n", all["proof"] / 60, all["tests"] / 60, all["edits"] / 60 }' "$1" |
        LC_ALL=C sort | sed 's/^~//'
}

# The crates in the order of crates.txt. Nothing stands where a crate had no check of the kind.
table() {
    local crate proof tests edits src specs proofs
    local -A spent all=([src]=0 [specs]=0 [proofs]=0)
    while read -r crate proof tests edits; do
        spent[$crate]="| $proof | $tests | $edits |"
    done < <(minutes "$1")
    printf '| Crate | Lines | Proof | Tests | Edits |\n|---|---|---|---|---|\n'
    while IFS=: read -r crate _; do
        [ -n "${spent[$crate]:-}" ] || continue
        read -r src specs proofs < <(lines_of "$crate")
        all[src]=$((all[src] + src)) all[specs]=$((all[specs] + specs)) all[proofs]=$((all[proofs] + proofs))
        printf '| `%s` | %d / %d / %d %s\n' "$crate" "$src" "$specs" "$proofs" "${spent[$crate]}"
    done < <(grep '^[a-z]' "$root/crates.txt")
    printf '| all | %d / %d / %d %s\n' "${all[src]}" "${all[specs]}" "${all[proofs]}" "${spent[all]}"
}

# Commas in the numbers of lines, and nothing in place of no minutes.
dressed() {
    sed -E -e ':more' -e 's/([0-9])([0-9]{3})( |$)/\1,\2\3/' -e 't more' -e 's/ 0\.0 \|/ |/g'
}

case ${1:-} in
    record) record "${@:2}" ;;
    watch) watch "$2" ;;
    table) table "$2" | dressed ;;
    short) minutes "$2" | paste -d';' - - - - - | sed 's/;*$//; s/;/; /g' ;;
    *) sed -n '2,10s/^# \{0,1\}//p' "${BASH_SOURCE[0]}"; exit 2 ;;
esac
