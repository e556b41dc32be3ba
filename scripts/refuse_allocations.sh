#!/usr/bin/env bash
# Refuses each allocation of a run in turn: `refuse_allocations.sh [MINUTES]`, 10 without a number. The gate doesn't
# run it. A library that stands before the system's (LD_PRELOAD) answers the Nth malloc or realloc of the built program
# with none. With that, the status must be 7, `out` empty and `err` the line of want of memory; where `err` takes
# nothing either, the status must be 6.
# Where a list or an arena asks again for less, the run goes on and its answer is that without a refusal. Such a number
# is tried once more with all allocations refused from it on, and then the status must be 7; these are counted apart.
# A small program is tried whole, the list of a realistic one too, and its verification as far as the time goes, in an
# order that is spread evenly wherever it ends. Ends with the figures of each.
set -u
root=$(cd "$(dirname "${BASH_SOURCE[0]}")/.." && pwd)
minutes=${1:-10}
case $minutes in
    '' | *[!0-9]*)
        echo 'refuse_allocations: the minutes are a number' >&2
        exit 2
        ;;
esac
if ! command -v cc > /dev/null || [ ! -w /dev/full ]; then
    echo 'refuse_allocations: a C compiler and /dev/full are needed' >&2
    exit 2
fi
here=$(mktemp -d)
trap 'rm -rf "$here"' EXIT
cd "$here" || exit 2

cat > small.scala <<'SOURCE'
object A {
  def g(x: Int): Int = {
    require(x != 5)
    x
  }
  def f(x: Int): Int = g(x)
}
SOURCE
cat > sorted.scala <<'SOURCE'
package demo
import stainless.lang._
import stainless.annotation._

object Sorted {
  sealed abstract class List[A]
  case class Cons[A](head: A, tail: List[A]) extends List[A]
  case class Nil[A]() extends List[A]

  def isSorted(l: List[Int]): Boolean = {
    decreases(l)
    l match {
      case Cons(a, t) => t match {
        case Cons(b, _) => a <= b && isSorted(t)
        case Nil() => true
      }
      case Nil() => true
    }
  }

  /* puts x in its place */
  def insert(x: Int, l: List[Int]): List[Int] = {
    require(isSorted(l))
    decreases(l)
    l match {
      case Nil() => Cons(x, Nil())
      case Cons(h, t) => if (x <= h) Cons(x, l) else Cons(h, insert(x, t))
    }
  } ensuring (res => isSorted(res))

  def sort(l: List[Int]): List[Int] = {
    decreases(l)
    l match {
      case Nil() => Nil()
      case Cons(h, t) => insert(h, sort(t))
    }
  } ensuring (res => isSorted(res))
}
SOURCE
cat > refuse.c <<'SOURCE'
#define _GNU_SOURCE
#include <dlfcn.h>
#include <errno.h>
#include <stdio.h>
#include <stdlib.h>

static unsigned long asked, refused_at, lasts;

__attribute__((constructor)) static void start(void) {
    const char *at = getenv("REFUSE_AT");
    refused_at = at ? strtoul(at, NULL, 10) : 0;
    lasts = getenv("REFUSE_LASTS") != NULL;
}

static int is_refused(void) {
    asked++;
    if (refused_at == 0 || asked < refused_at || (asked > refused_at && !lasts)) return 0;
    errno = ENOMEM;
    return 1;
}

void *malloc(size_t size) {
    static void *(*real)(size_t);
    if (!real) real = (void *(*)(size_t))dlsym(RTLD_NEXT, "malloc");
    return is_refused() ? NULL : real(size);
}

void *realloc(void *old, size_t size) {
    static void *(*real)(void *, size_t);
    if (!real) real = (void *(*)(void *, size_t))dlsym(RTLD_NEXT, "realloc");
    return is_refused() ? NULL : real(old, size);
}

__attribute__((destructor)) static void end(void) {
    const char *name = getenv("REFUSE_COUNT");
    unsigned long count = asked;
    FILE *file = name ? fopen(name, "w") : NULL;
    if (file) {
        fprintf(file, "%lu\n", count);
        fclose(file);
    }
}
SOURCE
cc -O1 -shared -fPIC -o refuse.so refuse.c -ldl || exit 2

"$root/pureproof" small.scala > /dev/null 2>&1 # builds the program where that is wanted
. "$root/scripts/program.sh"
if [ ! -x "$program" ] || sources_newer_than "$program"; then
    echo 'refuse_allocations: no program is built from these sources' >&2
    exit 2
fi
ulimit -S -s "$(ulimit -H -s)" 2> /dev/null
ulimit -v 2000000
ulimit -t 60
ends=$((SECONDS + minutes * 60))
wrong=0

# refuse N: runs the words with the Nth allocation refused, and leaves status, out and err
refuse() {
    LD_PRELOAD=$here/refuse.so REFUSE_AT=$1 "$program" "${words[@]}" > out 2> err
    status=$?
}

# is_memory: whether the last run ended for want of memory
is_memory() {
    local line=
    IFS= read -r line < err
    [ "$status" -eq 7 ] && [ ! -s out ] && [ "$line" = 'out of memory' ]
}

# is_plain: whether the last run ended as one without a refusal
is_plain() {
    [ "$status" -eq "$plain" ] && cmp -s out plain.out && cmp -s err plain.err
}

fail() {
    wrong=$((wrong + 1))
    printf 'refuse_allocations: %s: allocation %s: %s: status %s\n' "${words[*]}" "$1" "$2" "$status"
}

# Refuses one allocation.
try() {
    local full=6
    refuse "$1"
    if is_memory; then
        memory=$((memory + 1))
    elif is_plain; then
        less=$((less + 1))
        full=$plain
        REFUSE_LASTS=1 refuse "$1"
        is_memory || fail "$1" 'refused from there on'
    else
        fail "$1" 'refused'
    fi
    LD_PRELOAD=$here/refuse.so REFUSE_AT=$1 "$program" "${words[@]}" > out 2> /dev/full
    status=$?
    if [ "$full" -eq 6 ]; then
        [ "$status" -eq 6 ] && [ ! -s out ] || fail "$1" 'refused, and no err'
    else
        [ "$status" -eq "$full" ] && cmp -s out plain.out || fail "$1" 'refused, and no err'
    fi
    tried=$((tried + 1))
}

# reversed N BITS: N with its lowest bits in the other order
reversed() {
    local n=$1 bits=$2
    back=0
    while [ "$bits" -gt 0 ]; do
        back=$((back * 2 + n % 2))
        n=$((n / 2))
        bits=$((bits - 1))
    done
}

# series WORD..: refuses all allocations of the run on these words, as far as the time goes
series() {
    local n bits=0
    words=("$@")
    LD_PRELOAD=$here/refuse.so REFUSE_COUNT=$here/count "$program" "${words[@]}" > plain.out 2> plain.err
    plain=$?
    count=$(cat count)
    tried=0 memory=0 less=0
    while [ $((1 << bits)) -le "$count" ]; do
        bits=$((bits + 1))
    done
    for ((n = 1; n < 1 << bits && SECONDS < ends; n++)); do
        reversed "$n" "$bits"
        if [ "$back" -le "$count" ]; then
            try "$back"
        fi
    done
    # A number that no allocation has changes nothing.
    refuse $((count + 1))
    is_plain || fail $((count + 1)) 'refused'
    printf '%s: %s of %s allocations tried, %s answered with status 7, %s asked for less again\n' "${words[*]}" \
        "$tried" "$count" "$memory" "$less"
}

series small.scala
series --mode list sorted.scala
series --lemmas 1000000 sorted.scala

printf '%s wrong\n' "$wrong"
[ "$wrong" -eq 0 ]
