#!/usr/bin/env bash
# What the scripts share that start, build or keep the program; it is read by them (`.`) and does nothing by itself.
# Whoever reads it has put the top of the checkout into `root`.

program=$root/crates/pureproof/out/pureproof
release=$root/release

# The crates that the program stands on, lowest first, a line each with those of them that it stands on itself.
crates_below() {
    awk -F: '
        function visit(name, below, n) {
            if (name in uses && !seen[name]++) for (n = split(uses[name], below, " "); n > 0; n--) visit(below[n])
        }
        /^[a-z]/ { uses[$1] = $2; order[++count] = $1 }
        END {
            visit("pureproof")
            for (i = 1; i <= count; i++) {
                if (!(order[i] in seen) || order[i] == "pureproof") continue
                line = order[i]
                for (n = split(uses[order[i]], below, " "); n > 0; n--) if (below[n] in uses) line = line " " below[n]
                print line
            }
        }' "$root/crates.txt"
}

# find_sources TEST..: those of the sources, and of the folders of sources, on which these tests of `find` hold
find_sources() {
    find "$root/HANDLES" "$root/crates.txt" "$@"
    find "$root/crates" -mindepth 2 \( -name out -o -name must-fail -o -name data \) -prune -o \
        \( -name '*.rt' -o -name '*.antt' -o -type d \) "$@"
}

# sources_newer_than FILE: whether a source was changed since this file was, or a folder of sources, as it is when one
# was added or removed. It goes by the time that the system notes at each change (ctime): a source that was put back has
# an old date, but not an old time of this kind.
sources_newer_than() {
    [ -n "$(find_sources -cnewer "$1" -print -quit)" ]
}

# sum_of_sources KIT: the sum of all that the program is made from: the toolchain's line, HANDLES, crates.txt, and each
# `.rt` and `.antt` file of the crates that it stands on, by name and contents.
sum_of_sources() {
    local name folders=(crates/pureproof)
    while read -r name _; do
        folders+=("crates/$name")
    done < <(crates_below)
    (cd "$root" && {
        printf '%s\n' "$1"
        {
            printf '%s\0' HANDLES crates.txt
            find "${folders[@]}" -name out -prune -o -type f \( -name '*.rt' -o -name '*.antt' \) -print0
        } | LC_ALL=C sort -z | xargs -0 sha256sum
    } | sha256sum | cut -d ' ' -f 1)
}

# noted NAME: what release/MADE says under this name
noted() {
    sed -n "s/^$1: //p" "$release/MADE" 2> /dev/null
}
