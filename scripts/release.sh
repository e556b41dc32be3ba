#!/usr/bin/env bash
# Keeps the program below `release`, so that it runs where nothing was built and no toolchain is installed: builds it
# where it isn't newer than its sources, and writes it, compressed, and in MADE what it was made from:
#
#   toolchain: the line of `rt version`
#   sources: the sum of HANDLES, crates.txt and the sources of all crates that it stands on, with that line
#   program: the sum of the program
#
# Each landing that changes the program ends with this. scripts/check_release.sh says whether it is still fresh.
set -eu
root=$(cd "$(dirname "${BASH_SOURCE[0]}")/.." && pwd)
. "$root/scripts/program.sh"

if [ ! -x "$program" ] || sources_newer_than "$program"; then
    bash "$root/scripts/build.sh"
fi
mkdir -p "$release"
gzip -9nc "$program" > "$release/pureproof.gz"
kit=$(rt version)
{
    printf 'toolchain: %s\n' "$kit"
    printf 'sources: %s\n' "$(sum_of_sources "$kit")"
    printf 'program: %s\n' "$(sha256sum < "$program" | cut -d ' ' -f 1)"
} > "$release/MADE"
cat "$release/MADE"
