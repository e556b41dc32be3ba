#!/usr/bin/env bash
# Times the lexer on sources of 262,144 bytes: round brackets, opened comments, letters, and a realistic program.
# It wants crates/pp_source_cases/out/pp_source_cases, which `rt run` in that crate's folder leaves.
set -eu
root=$(cd "$(dirname "${BASH_SOURCE[0]}")/.." && pwd)
program=$root/crates/pp_source_cases/out/pp_source_cases
here=$(mktemp -d)
trap 'rm -rf "$here"' EXIT
cd "$here"

# repeated TEXT NAME: the text again and again, up to 262,144 bytes
repeated() {
    python3 -c 'import sys; t = sys.argv[1]; sys.stdout.write((t * (262144 // len(t) + 1))[:262144])' "$1" > "$2"
}

repeated '(' round
repeated '/*' comments
repeated 'abcdefgh' letters
repeated '  def insert(x: Int, l: List): List = l match {
    case Cons(h, t) => if (x <= h) Cons(x, l) else Cons(h, insert(x, t)) // in its place
    case Nil() => Cons(x, Nil())
  }
' program

for kind in round comments letters program; do
    for _ in 1 2 3; do
        /usr/bin/env bash -c "TIMEFORMAT='$kind: %R s'; time '$program' 'count_tokens $kind' | tail -n 1"
    done
done
