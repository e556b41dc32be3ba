#!/usr/bin/env bash
# Whether the kept program below `release` is the one that the sources give. Where it was made from these sources, by the
# toolchain of this machine, the program that was built here has to be the same byte for byte; where it was made from
# others, that is said in the line `other sources`, and nothing fails. With `--sums` only the sums are compared: of the
# sources with those that are noted, and of the kept program with its own.
set -u
root=$(cd "$(dirname "${BASH_SOURCE[0]}")/.." && pwd)
. "$root/scripts/program.sh"

if [ ! -r "$release/MADE" ] || [ ! -r "$release/pureproof.gz" ]; then
    echo 'check_release: no program is kept'
    exit 1
fi
unpacked=$(mktemp)
trap 'rm -f "$unpacked"' EXIT
if ! gzip -cd "$release/pureproof.gz" > "$unpacked" 2> /dev/null ||
    [ "$(sha256sum < "$unpacked" | cut -d ' ' -f 1)" != "$(noted program)" ]; then
    echo 'check_release: the kept program is damaged'
    exit 1
fi
kit=$(noted toolchain)
if [ "$(sum_of_sources "$kit")" != "$(noted sources)" ]; then
    echo 'check_release: other sources'
    exit 0
fi
if [ "${1:-}" = --sums ]; then
    echo 'check_release: the same sources'
    exit 0
fi
if ! command -v rt > /dev/null || [ "$(rt version)" != "$kit" ]; then
    echo "check_release: the same sources, by another toolchain ($kit)"
    exit 0
fi
if [ ! -x "$program" ]; then
    echo 'check_release: no program was built here'
    exit 1
fi
if cmp "$program" "$unpacked"; then
    echo 'check_release: the program that was built here is the kept one, byte for byte'
else
    echo 'check_release: the program that was built here is another one than the kept one'
    exit 1
fi
