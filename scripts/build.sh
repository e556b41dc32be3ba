#!/usr/bin/env bash
# Builds the program, which proves it: the crates that it stands on side by side. A build can be stopped; the next one
# goes on from the crates that are done.
#
# `rt` locks a crate and all that it stands on. So each lane of a build works in a copy of the sources, below `lanes`.
# What it built is linked to where the checkout keeps it, and from there into the lane that needs it; `rt` takes a
# library only where all that it was made from is unchanged.
set -u
root=$(cd "$(dirname "${BASH_SOURCE[0]}")/.." && pwd)
. "$root/scripts/program.sh"
lanes=$root/crates/pureproof/out/lanes

# How many crates to build at a time: one for each processor, and for each 4 GB of memory.
at_a_time() {
    awk -v most="$(nproc)" '/^MemAvailable/ { n = int($2 / 4000000) } END { print n < 1 ? 1 : n < most ? n : most }' \
        /proc/meminfo
}

are_done() {
    local name
    for name in "$@"; do
        [ -e "$lanes/done/$name" ] || return 1
    done
}

# Takes the next crate that can be built: names it in `crate`, and those of ours that it stands on in `below`. Waits while
# there will be one; fails once there is none.
take_crate() {
    local left=yes
    while [ "$left" = yes ] && [ ! -e "$lanes/failed" ]; do
        left=no
        while read -r crate below; do
            [ -e "$lanes/taken/$crate" ] && continue
            left=yes
            # shellcheck disable=SC2086
            are_done $below && mkdir "$lanes/taken/$crate" 2> /dev/null && return
        done < "$lanes/order"
        sleep 1
    done
    return 1
}

# link_library FROM TO CRATE: has the second checkout use what the first one built of the crate
link_library() {
    [ -e "$1/crates/$3/out/rlib/stamp" ] || return 0
    mkdir -p "$2/crates/$3/out"
    rm -rf "$2/crates/$3/out/rlib"
    cp -al "$1/crates/$3/out/rlib" "$2/crates/$3/out/rlib"
}

# Builds one crate after another in the lane with this number.
run_lane() {
    local crate below name lane=$lanes/$1
    rm -rf "$lane"
    mkdir -p "$lane"
    tar -C "$root" --exclude=out -cf - HANDLES crates.txt crates | tar -C "$lane" -xf - || return
    while take_crate; do
        for name in $below $crate; do
            link_library "$root" "$lane" "$name"
        done
        if (cd "$lane/crates/$crate" && rt lib) > "$lane/log" 2>&1 < /dev/null; then
            link_library "$lane" "$root" "$crate"
            touch "$lanes/done/$crate"
            echo "pureproof: $(find "$lanes/done" -type f | wc -l) of $(($(wc -l < "$lanes/order") + 1)) crates: $crate" >&2
        else
            cat "$lane/log" >> "$lanes/failed"
        fi
    done
}

# Ends the lanes, each with what it runs.
stop_lanes() {
    local lane
    for lane in $(jobs -p); do
        kill -- "-$lane" 2> /dev/null
    done
    echo 'pureproof: the build was stopped; the next one goes on from the crates that are done' >&2
    exit 130
}

rm -rf "$lanes"
mkdir -p "$lanes/done" "$lanes/taken"
# The program is as old as the sources that it was made from, whatever is edited meanwhile.
: > "$lanes/begun"
crates_below > "$lanes/order"
set -m
trap stop_lanes INT TERM
for ((number = $(at_a_time); number > 0; number--)); do
    run_lane "$number" &
done
wait
trap - INT TERM
set +m
[ ! -e "$lanes/failed" ] || { cat "$lanes/failed" >&2 && exit 1; }
# The run that ends a build gets no words, which the program refuses.
(cd "$root/crates/pureproof" && rt run) > "$lanes/log" 2>&1 < /dev/null
if ! grep -q '^logic=proved\|^rt: nothing has changed' "$lanes/log" || [ ! -x "$program" ]; then
    cat "$lanes/log" >&2
    exit 1
fi
touch -r "$lanes/begun" "$program"
rm -rf "$lanes"
