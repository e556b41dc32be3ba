#!/usr/bin/env bash
# Sources and outputs that are meant to do harm: faults of the outputs, cut and nested sources, numbers at and past
# their limits, and what grows without bound. Each answer comes within limits of memory, processor time and stack.
# Ends with the number of checks that passed and failed.
set -u
export LC_ALL=C
root=$(cd "$(dirname "${BASH_SOURCE[0]}")/.." && pwd)
here=$(mktemp -d)
trap 'rm -rf "$here"' EXIT
cd "$here" || exit 1
passed=0
failed=0

# fail NAME: tells what the last run left
fail() {
    failed=$((failed + 1))
    printf 'check_hostile: %s: status %s, out: %s, err: %s\n' "$1" "$status" "$(head -c 300 out)" "$(head -c 300 err)"
}

# check NAME STATUS OUT ERR: compares what the last run left in status, out and err. Where words were refused, of err
# the first line is compared, which is the program's.
check() {
    if [ "$status" -eq 4 ]; then
        head -n 1 err > first && mv first err
    fi
    if [ "$status" -eq "$2" ] && [ "$(cat out)" = "$3" ] && [ "$(cat err)" = "$4" ]; then
        passed=$((passed + 1))
    else
        fail "$1"
    fi
}

# hold KILOBYTES SECONDS STACK: what the next runs have of memory, processor time, and stack in kilobytes
hold() {
    memory=$1 seconds=$2 stack=$3
}

within() {
    (ulimit -v "$memory" && ulimit -t "$seconds" && ulimit -S -s "$stack" && exec "$program" "$@")
}

run() {
    within "$@" > out 2> err
    status=$?
}

# repeat TEXT N: the text N times
repeat() {
    local text
    printf -v text '%*s' "$2" ''
    printf '%s' "${text// /$1}"
}

# put LINE..: the source a.scala that is these lines
put() {
    printf '%s\n' "$@" > a.scala
}

printf 'object A {\n}\n' > a.scala
"$root/pureproof" a.scala > /dev/null 2>&1 # builds the program where that is wanted
. "$root/scripts/program.sh"
if [ ! -x "$program" ] || sources_newer_than "$program"; then
    program=$root/pureproof
fi
hold 1000000 2 8192
nothing='0 valid, 0 invalid, 0 open, 0 depending'
one='1 valid, 0 invalid, 0 open, 0 depending'

# An output that gives out: a file that may hold so many bytes more, where the signal for it is ignored.
put 'object A {' '  def g(x: Int): Int = {' '    require(x != 5)' '    x' '  }' '  def f(x: Int): Int = g(x)' '}'
lines=$(printf '%s\n' 'g: valid, 0 checks' 'f: invalid, precondition at 1:6:24, x = 5' \
    '1 valid, 1 invalid, 0 open, 0 depending')
# gives_out BYTES: the run whose output takes no more
gives_out() {
    head -c $((1024 - $1)) /dev/zero > out
    (trap '' XFSZ && ulimit -f 1 && within a.scala >> out 2> err)
    status=$?
    tail -c +$((1025 - $1)) out > taken && mv taken out
}
for bytes in 0 3 18 19 22 60 61 64 100; do
    gives_out "$bytes"
    if [ "$(wc -c < out)" -eq "$bytes" ]; then
        check "an output of $bytes bytes" 6 "$(printf '%s' "${lines:0:bytes}")" 'write fault'
    else
        fail "an output of $bytes bytes"
    fi
done
gives_out 101
check 'an output that is large enough' 1 "$lines" ''

: > err
if [ -w /dev/full ]; then
    # err_gives_out NAME WORD..: the run whose error output takes nothing
    err_gives_out() {
        local name=$1
        shift
        within "$@" > out 2> /dev/full
        status=$?
        check "$name, and the error output is full" 6 '' ''
    }
    err_gives_out 'no words'
    err_gives_out 'a file that is missing' absent.scala
    printf 'object A {' > cut.scala
    err_gives_out 'a source that is cut' cut.scala
    within a.scala > /dev/full 2> /dev/full
    status=$?
    : > out
    check 'both outputs are full' 6 '' ''
fi
within > out 2>&-
status=$?
check 'no words, and the error output is closed' 6 '' ''

# A source that is cut: at each byte in its object.
cat > whole.scala <<'SOURCE'
package demo
import stainless.lang._
import stainless.annotation._

object Sorted {
  sealed abstract class List[A]
  case class Cons[A](head: A, tail: List[A]) extends List[A]
  case class Nil[A]() extends List[A]

  def isSorted(l: List[Int]): Boolean = {
    decreases(l)
    l match {
      case Cons(a, t) => t match {
        case Cons(b, _) => a <= b && isSorted(t)
        case Nil() => true
      }
      case Nil() => true
    }
  }

  /* puts x in its place */
  def insert(x: Int, l: List[Int]): List[Int] = {
    require(isSorted(l))
    decreases(l)
    l match {
      case Nil() => Cons(x, Nil())
      case Cons(h, t) => if (x <= h) Cons(x, l) else Cons(h, insert(x, t))
    }
  } ensuring (res => isSorted(res))

  def sort(l: List[Int]): List[Int] = {
    decreases(l)
    l match {
      case Nil() => Nil()
      case Cons(h, t) => insert(h, sort(t))
    }
  } ensuring (res => isSorted(res))
}
SOURCE
whole=$(cat whole.scala)
before=${whole%%Sorted \{*}'Sorted {'
until=${whole%\}*}
opened=${whole%%/\**}'/*'
closed=${whole%%\*/*}'*'
for ((n = ${#before}; n <= ${#until}; n++)); do
    printf '%s' "${whole:0:n}" > cut.scala
    run cut.scala
    line=
    IFS= read -r line < err
    cause='refused: syntax at 1:'
    if [ "$n" -ge ${#opened} ] && [ "$n" -le ${#closed} ]; then
        cause='refused: open comment at 1:21:3'
    fi
    if [ "$status" -ne 3 ] || [ -s out ] || [ "${line:0:${#cause}}" != "$cause" ]; then
        fail "a source that is cut at byte $n"
    fi
done
passed=$((passed + 1))

# Nesting.
put "object A { def n(): Boolean = $(repeat '!(' 63)true$(repeat ')' 63) }"
run a.scala
check 'a tree of height 64' 0 "$(printf 'n: valid, 0 checks\n%s' "$one")" ''
put "object A { def n(): Boolean = $(repeat '!(' 64)true$(repeat ')' 64) }"
run a.scala
check 'a tree of height 65' 3 '' 'refused: too deep at 1:1:31'
deep="$(repeat '!(' 64)true$(repeat ')' 64)"
put "object A { def n(): Boolean = { decreases($deep); require($deep); true } }"
run a.scala
check 'two contracts of height 65, of which the first is told' 3 '' 'refused: too deep at 1:1:43'
hold 1000000 2 1024
put "object A { def n(): Boolean = $(repeat '(' 100000)true$(repeat ')' 100000) }"
run a.scala
check '100000 parentheses' 0 "$(printf 'n: valid, 0 checks\n%s' "$one")" ''
put "object A { def n(): Boolean = $(repeat '(' 100000)true }"
run a.scala
check '100000 parentheses that nothing closes' 3 '' 'refused: syntax at 1:1:100036'
put "object A { def n(): Int = 1$(repeat ' + 1' 60000) }"
run a.scala
check 'a sum of 60001 numbers' 3 '' 'refused: too deep at 1:1:240025'
put "object A { def n(b: Boolean): Int = $(repeat 'if (b) 1 else ' 15000)1 }"
run a.scala
check '15000 conditions' 3 '' 'refused: too deep at 1:1:37'
put "object A { def n(): Int = $(repeat '{' 100000)1$(repeat '}' 100000) }"
run a.scala
check '100000 braces' 0 "$(printf 'n: valid, 0 checks\n%s' "$one")" ''
put "object A { def n(x: $(repeat 'L[' 60000)Int$(repeat ']' 60000)): Int = 1 }"
run a.scala
check 'a type in 60000 brackets' 3 '' 'refused: too deep at 1:1:21'
printf '%s%s' "$(repeat '/*' 65536)" "$(repeat '*/' 65536)" > a.scala
run a.scala
check '65536 comments, each in the next' 0 "$nothing" ''
repeat '/*' 131072 > a.scala
run a.scala
check '131072 comments that nothing closes' 3 '' 'refused: open comment at 1:1:1'

# One word or mark as long as a source may be.
repeat $'\n' 262144 > a.scala
run a.scala
check '262144 newlines' 0 "$nothing" ''
repeat '(' 262144 > a.scala
run a.scala
check '262144 parentheses' 3 '' 'refused: syntax at 1:1:1'
name=$(repeat a 262116)
printf 'object A { def %s(): Int = 1 }' "$name" > a.scala
run a.scala
check 'a name of 262116 letters' 0 "$(printf '%s: valid, 0 checks\n%s' "$name" "$one")" ''
printf 'object A { def f(x: %s): Int = 1 }' "${name:30}" > a.scala
run a.scala
check 'a type of 262086 letters' 3 '' "refused: unknown ${name:30} at 1:1:21"
put "object A { def n(): Int = $(repeat 1 200000) }"
run a.scala
check 'a number of 200000 digits' 3 '' 'refused: bad number at 1:1:27'
put "object A { def n(): Int = 1 $(repeat + 200000) 1 }"
run a.scala
check 'an operator of 200000 characters' 3 '' 'refused: bad character at 1:1:29'

# Numbers at their limits, and past them.
{
    echo 'object A {'
    for n in {1..512}; do
        echo "  def f$n(): Int = $n"
    done
    echo '}'
} > a.scala
run a.scala
check '512 functions' 0 "$(printf 'f%s: valid, 0 checks\n' {1..512}
    echo '512 valid, 0 invalid, 0 open, 0 depending')" ''
sed -i '$i\  def f513(): Int = 513' a.scala
run a.scala
check '513 functions' 3 '' 'refused: too many instances'
parameters=$(printf ', x%s: Int' {1..15})
constructors=$(printf '  case class C%s(x: Int) extends R\n' {1..64})
put 'object A {' '  sealed trait R' "$constructors" "  def f(x0: Int$parameters): Int = x0" \
    '  def g[A, B, C, D](a: A): A = a' '}'
run a.scala
check '64 constructors, 16 parameters, 4 type parameters' 0 "$(printf '%s\n' 'f: valid, 0 checks' \
    'g[Int, Int, Int, Int]: valid, 0 checks' '2 valid, 0 invalid, 0 open, 0 depending')" ''
put 'object A {' "  def f(x0: Int$parameters, x16: Int): Int = x0" '}'
run a.scala
check '17 parameters' 3 '' 'refused: over limit f at 1:2:7'
put 'object A {' '  sealed trait R' "$constructors" '  case class C65(x: Int) extends R' '}'
run a.scala
check '65 constructors' 3 '' 'refused: over limit C65 at 1:67:14'
put 'object A {' '  def g[A, B, C, D, E](a: A): A = a' '}'
run a.scala
check '5 type parameters' 3 '' 'refused: over limit g at 1:2:7'
: > a.scala
words=(a.scala a.scala a.scala a.scala a.scala a.scala a.scala a.scala)
run "${words[@]}" "${words[@]}"
check 'one empty file sixteen times' 0 "$nothing" ''
run "${words[@]}" "${words[@]}" a.scala
check 'one empty file seventeen times' 4 '' 'words refused'
hold 1000000 2 8192 # words take of the stack
mapfile -t words < <(printf 'a%s.scala\n' {1..20000})
run "${words[@]}"
check '20000 words' 4 '' 'words refused'
put 'object A { def f(): Int = 1 }'
run --mode run --function "${name:0:100000}" a.scala
check 'a function that is looked up by 100000 letters' 4 '' 'words refused'
run a.scala a.scala
check 'one file twice' 3 '' 'refused: duplicate f at 2:1:16'
run /dev/zero
check 'a file without an end' 3 '' 'refused: too long source 1'

# What is joined, and what doubles.
hold 1000000 2 1024
put 'object A {' '  def f(b: Boolean): Boolean = {' "$(repeat 'require(b);' 20000)" '    b' '  }' '}'
run a.scala
check '20000 preconditions' 0 "$(printf 'f: valid, 0 checks\n%s' "$one")" ''
sum=1/x
for n in {1..15}; do
    sum="($sum+$sum)"
done
put 'object A {' "  def f(x: Int): Int = $sum" '}'
hold 1000000 2 8192
run a.scala
check '32768 divisions' 1 "$(printf '%s\n' 'f: invalid, division at 1:2:40, x = 0' \
    '0 valid, 1 invalid, 0 open, 0 depending')" ''
run --mode list a.scala
printf '%s lines\n%s\n' "$(wc -l < out)" "$(head -n 1 out)" > first && mv first out
check 'a list of 32768 divisions' 0 "$(printf '32769 lines\nf: 32768 checks')" ''
# doubles N: the source a.scala in which a type doubles N times in one function
doubles() {
    put 'object A {' '  case class P[A, B](a: A, b: B)' '  def f(a0: Int): Int = {' \
        "$(for ((n = 0; n < $1; n++)); do echo "    val a$((n + 1)) = P(a$n, a$n)"; done)" '    a0' '  }' '}'
}
doubles 10
run a.scala
check 'a type that doubles 10 times' 0 "$(printf 'f: valid, 0 checks\n%s' "$one")" ''
doubles 40
cp a.scala forty.scala
put 'object A {' '  case class P[A, B](a: A, b: B)' \
    '  def r[A](n: Int, a: A): Int = { decreases(n); if (n <= 0) 0 else r(n - 1, P(a, a)) }' \
    '  def t(): Int = r(1, 0)' '}'
for kilobytes in 256000 2000000; do
    hold "$kilobytes" 2 8192
    run forty.scala
    check "a type that doubles 40 times, in $kilobytes KB" 7 '' 'out of memory'
    run a.scala
    check "a type that doubles with each instance, in $kilobytes KB" 7 '' 'out of memory'
done

# Proofs by cases, where each step of a sum has many others that are sums of it, or many classes meet.
hold 1000000 1 8192
list='  sealed abstract class List
  case class Cons(head: Int, tail: List) extends List
  case class Nil() extends List
  def len(l: List): Int = {
    decreases(l)
    l match {
      case Nil() => 0
      case Cons(_, t) => len(t) + 1
    }
  }'
# settles NAME: the source a.scala is settled within that time, whatever is said of it
settles() {
    run a.scala
    if [ "$status" -gt 2 ] || [ -s err ]; then
        fail "$1"
    else
        passed=$((passed + 1))
    fi
}
for k in 8 16 32; do
    put 'object A {' "$list" '  def f(l: List): Boolean = {' '    val a = len(l)' \
        "    !(a == a + a) || a$(repeat ' + a' $((k - 1))) <= a$(repeat ' + a' $((k - 3)))" '  }.holds' '}'
    run a.scala
    check "a sum of $k equal parts" 0 "$(printf '%s\n' 'len: valid, 1 checks' 'f: valid, 1 checks' \
        '2 valid, 0 invalid, 0 open, 0 depending')" ''
    put 'object A {' "$list" '  def f(l: List, a: Int): Boolean = {' '    require(a == a + a)' \
        "    len(l) == len(l) + (a$(repeat ' + a' $((k - 1))))" '  }.holds' '}'
    settles "a claim on a sum of $k equal parts, each equal to the sum of two"
done
for k in 10 30 54; do
    put 'object A {' "$list" \
        '  def walk(l: List, a: Int, b: Int, c: Int, d: Int, e: Int, f: Int, g: Int): Int = {' '    decreases(l)' \
        '    l match {' '      case Nil() => 0' '      case Cons(x, t) =>' \
        "$(for ((n = 1; n <= k; n++)); do echo "        if (a + b + c + d + e + f + g <= 10 * $n) $n else"; done)" \
        '        walk(t, a, b, c, d, e, f, g)' '    }' '  } ensuring (res => res >= 0)' '}'
    settles "$k branches on one sum"
done

# Claims whose calls are unfolded on demand and that stay open: so many are tried in vain, and no more.
hold 500000 30 8192
lists='  sealed abstract class List
  case class Cons(head: Int, tail: List) extends List
  case class Nil() extends List
  def append(l: List, m: List): List = {
    decreases(l)
    l match {
      case Nil() => m
      case Cons(h, t) => Cons(h, append(t, m))
    }
  }
  def reverse(l: List): List = {
    decreases(l)
    l match {
      case Nil() => Nil()
      case Cons(h, t) => append(reverse(t), Cons(h, Nil()))
    }
  }'
for k in 20 200; do
    put 'object A {' "$lists" "$(for ((n = 1; n <= k; n++)); do
        printf '%s\n' "  def claim$n(l: List, m: List): Boolean = {" '    decreases(l)' '    l match {' \
            '      case Nil() => reverse(append(m, l)) == reverse(m)' '      case Cons(_, t) =>' \
            "        claim$n(t, m) && reverse(append(l, m)) == append(reverse(m), reverse(l))" '    }' '  }.holds'
    done)" '}'
    settles "$k claims that stay open"
done

printf '%s passed, %s failed\n' "$passed" "$failed"
[ "$failed" -eq 0 ]
