#!/usr/bin/env bash
# Times the parser on sources of 262,144 bytes: open round brackets, balanced brackets round one name, a realistic
# program, and one sum of names. The time of the lexer alone on the same source is shown beside it. It wants
# crates/pp_source_cases/out/pp_source_cases, which `rt run` in that crate's folder leaves.
set -eu
root=$(cd "$(dirname "${BASH_SOURCE[0]}")/.." && pwd)
program=$root/crates/pp_source_cases/out/pp_source_cases
here=$(mktemp -d)
trap 'rm -rf "$here"' EXIT
cd "$here"

python3 - <<'PY'
SIZE = 262144
HEAD, TAIL = "object A { def f(a: Int): Int = ", " }"

def body(text):
    return HEAD + text + TAIL

def write(name, text):
    assert len(text) <= SIZE, name
    open(name, "w").write(text)

room = SIZE - len(HEAD) - len(TAIL)
write("open", HEAD + "(" * (SIZE - len(HEAD)))
half = (room - 1) // 2
write("balanced", body("(" * half + "a" + ")" * half))
write("sum", body("a" + " + a" * ((room - 1) // 4)))
part = """  def insert%d(x: Int, l: List): List = {
    require(isSorted(l) && size(l) < 1000)
    l match {
      case Cons(h, t) => if (x <= h) Cons(x, l) else Cons(h, insert%d(x, t)) // in its place
      case Nil() => Cons(x, Nil())
    }
  } ensuring (res => isSorted(res) && size(res) == size(l) + 1)
"""
program = "object Lists {\n"
n = 0
while len(program) + len(part % (n, n)) + 2 <= SIZE:
    program += part % (n, n)
    n += 1
write("program", program + "}\n")
PY

for kind in open balanced program sum; do
    printf '%s: ' "$kind"
    "$program" "count_declarations $kind" | tail -n 1
    for _ in 1 2 3; do
        bash -c "TIMEFORMAT='$kind, tokens: %R s'; time '$program' 'count_tokens $kind' > /dev/null"
        bash -c "TIMEFORMAT='$kind, tokens and parser: %R s'; time '$program' 'count_declarations $kind' > /dev/null"
    done
done
