#!/usr/bin/env bash
# The second tier of must-fail edits, those under edits/: tries them on a copy of the repository. It is no part of the
# gate, whose own edits stand in crates/NAME/must-fail/.
#
#   edits.sh             tries the edits of each crate whose sources, edits or logic changed since they were tried
#   edits.sh NAME ..     tries those of these crates
#   edits.sh --all       tries all
#   edits.sh --list      says which crates are untried, and tries nothing
#
# Ten crates are tried at once, so that each processor has an edit, or the proof that a crate's edits begin with.
#
# edits/TRIED has a line for each crate: its name, the sum of its sources, its edits and the toolchain's logic when they
# were last tried, and the edits that were refused then. Toolchains of one logic may differ in what their tactics find,
# but what is false is proved by none. A crate stays untried where a try came to no verdict. The lines of
# ten crates are written as soon as they are done, so a run that was stopped is taken up by the next. Libraries that
# were built in this checkout aren't built again.
set -u
root=$(cd "$(dirname "${BASH_SOURCE[0]}")/.." && pwd)
tried=$root/edits/TRIED
logic=$(rt version | sed "s/.* logic/logic/")
at_once=10

# The crates with edits of the second tier.
names_of_all() {
    (cd "$root/edits" && printf '%s\n' */ | tr -d /)
}

# sum_of NAME: the sum of the crate's sources, its edits of the second tier and the toolchain's logic
sum_of() {
    (cd "$root" && {
        printf '%s\n' "$logic"
        find "crates/$1" "edits/$1" -name out -prune -o -type f \( -name '*.rt' -o -name '*.antt' \) -print0 \
            -o -type f -path "edits/$1/*.edit" -print0 | LC_ALL=C sort -z | xargs -0 sha256sum
    } | sha256sum | cut -c 1-16)
}

# is_untried NAME: whether what edits/TRIED says of the crate isn't of its present text
is_untried() {
    ! grep -q "^$1 $(sum_of "$1")\( \|\$\)" "$tried" 2> /dev/null
}

# copy_for NAME ..: a copy of the repository in `copy`, in which the edits of these crates' second tier are those to try
copy_for() {
    local crate name
    copy=$(mktemp -d)
    mkdir "$copy/crates"
    cp "$root/crates.txt" "$root/HANDLES" "$copy/"
    for crate in "$root"/crates/*/; do
        name=$(basename "$crate")
        mkdir "$copy/crates/$name"
        find "$crate" -mindepth 1 -maxdepth 1 ! -name out ! -name must-fail -exec cp -r {} "$copy/crates/$name/" \;
        if [ -e "$crate/out/rlib/stamp" ]; then
            mkdir "$copy/crates/$name/out"
            cp -al "$crate/out/rlib" "$copy/crates/$name/out/rlib"
        fi
    done
    for name in "$@"; do
        cp -r "$root/edits/$name" "$copy/crates/$name/must-fail"
    done
}

# note NAME LOG: says which edits weren't refused, and writes the line of the crate, unless one of them came to no verdict
note() {
    local edit name=$1 refused=() all_tried=yes
    for edit in "$root/edits/$name"/*.edit; do
        edit=$(basename "$edit")
        if grep -q "^rt: must-fail $name/$edit: refused" "$2"; then
            refused+=("${edit%.edit}")
            continue
        fi
        failed=$((failed + 1))
        grep "must-fail $name/$edit" "$2" || echo "edits: $name/$edit: not tried"
        grep -q "must-fail $name/$edit: \(NOT REFUSED\|BAD EDIT\)" "$2" || all_tried=no
    done
    passed=$((passed + ${#refused[@]}))
    echo "edits: $name: ${#refused[@]} refused"
    [ "$all_tried" = yes ] || return
    {
        grep -v "^$name " "$tried" 2> /dev/null
        echo "$name $(sum_of "$name")" "${refused[@]}"
    } | LC_ALL=C sort > "$tried.part"
    mv "$tried.part" "$tried"
}

case ${1:-} in
    --all) mapfile -t names < <(names_of_all) ;;
    --list | '')
        names=()
        while read -r name; do
            if is_untried "$name"; then names+=("$name"); fi
        done < <(names_of_all)
        ;;
    *) names=("$@") ;;
esac
if [ "${1:-}" = --list ]; then
    printf 'untried: %s\n' "${names[@]}"
    exit 0
fi
passed=0
failed=0
log=$(mktemp)
trap 'rm -rf "$log" "${copy:-}"' EXIT
for name in "${names[@]}"; do
    if [ ! -d "$root/edits/$name" ]; then
        echo "edits: edits/$name is missing" >&2
        exit 2
    fi
done
for ((first = 0; first < ${#names[@]}; first += at_once)); do
    group=("${names[@]:first:at_once}")
    copy_for "${group[@]}"
    (cd "$copy" && rt must-fail "${group[@]}") > "$log" 2>&1
    for name in "${group[@]}"; do
        note "$name" "$log"
    done
    rm -rf "$copy"
done
echo "$passed passed, $failed failed"
[ "$failed" -eq 0 ]
