#!/usr/bin/env bash
# A tree kept past its arena's reset must not compile. Two copies of pp_tree_build get one function more: in the first
# it reads the tree before the reset, and has to be proved; in the second the two lines change places, and the borrow
# checker has to refuse it. Ends with the number of checks that passed and failed.
set -u
root=$(cd "$(dirname "${BASH_SOURCE[0]}")/.." && pwd)
here=$(mktemp -d)
trap 'rm -rf "$here"' EXIT
passed=0
failed=0

read_tree='let height = tree.levels;'
reset='let _ = arena.reset();'

# copy NAME FIRST SECOND: a copy of pp_tree_build with the function, in which these two lines stand in this order
copy() {
    mkdir -p "$here/$1/crates"
    cp "$root/HANDLES" "$here/$1/"
    printf 'pp_tree:\npp_tree_build: bumpalo pp_tree\n' > "$here/$1/crates.txt"
    cp -r "$root/crates/pp_tree" "$root/crates/pp_tree_build" "$here/$1/crates/"
    rm -rf "$here/$1"/crates/*/out "$here/$1"/crates/*/must-fail
    cat > "$here/$1/crates/pp_tree_build/src/reset.rt" <<RT
//! A tree, and the reset of its arena.

use crate::{NoMemory, int};
use bumpalo::Bump;

/// How high a tree is whose arena is reset.
pub fn height_and_reset(arena: &mut Bump) -> Result<u32, NoMemory> {
    let tree = int(arena, 0, 1)?;
    $2
    $3
    Ok(height)
}
RT
    sed -i 's/^mod roots;/pub mod reset;\nmod roots;/' "$here/$1/crates/pp_tree_build/src/lib.rt"
}

# check NAME RESULT: counts the check as passed where the result is 0
check() {
    if [ "$2" -eq 0 ]; then
        passed=$((passed + 1))
    else
        failed=$((failed + 1))
        printf 'check_arena: %s\n' "$1"
        tail -5 "$here/log"
    fi
}

copy fair "$read_tree" "$reset"
(cd "$here/fair/crates/pp_tree_build" && rt check --only pp_tree_build::reset) > "$here/log" 2>&1
check 'a tree that is read before the reset compiles' $?

copy misuse "$reset" "$read_tree"
(cd "$here/misuse/crates/pp_tree_build" && rt check --only pp_tree_build::reset) > "$here/log" 2>&1
[ $? -ne 0 ] && grep -q 'borrow-e0502' "$here/log"
check 'a tree that is read behind the reset is refused by the borrow checker' $?

printf 'check_arena: %s passed, %s failed\n' "$passed" "$failed"
[ "$failed" -eq 0 ]
