#!/usr/bin/env python3
"""Claims on words, each by itself with default words: what the program says of it and in how many milliseconds, and,
where `z3` is installed, what z3 says of the same claim on bit vectors of 32 digits.

    words.py [PROGRAM]      the program to run, `pureproof` at the top where none is named

A claim is written once, in the syntax of Python's expressions, and becomes a Scala function and an SMT-LIB script.
`a if t else b` is a choice, `//` and `%` are Scala's quotient and remainder; what is required stands before `|`.
"""
import ast
import os
import shutil
import subprocess
import sys
import tempfile
import time

CLAIMS = """
sums in another order: (a + b) + (c + d) == (c + a) + (d + b)
sums of five in another order: a + (b + (c + (d + e))) == ((e + d) + c) + (b + a)
a difference is undone: (a - b) + b == a
differences of sums: (a + b) - (c + b) == a - c
a negation of a difference: -(a - b) == b - a
twice is a sum: 2 * a == a + a
three times less once: 3 * a - a == a + a
constants are folded: (a + 5) + (b - 7) == (a + b) - 2
a number isn't its successor: a != a + 1
sums that differ by a constant: a + b + 1 != b + a + 3
products commute: a * b == b * a
products associate: (a * b) * c == a * (b * c)
products of four in another order: (a * b) * (c * d) == (d * a) * (c * b)
a product of a sum: (a + b) * c == a * c + b * c
a product of two sums: (a + b) * (c + d) == a * c + a * d + (b * c + b * d)
the square of a sum: (a + b) * (a + b) == a * a + 2 * a * b + b * b
a difference of squares: (a + b) * (a - b) == a * a - b * b
a square of a negation: (-a) * (-a) == a * a
a constant is taken out: 6 * a + 4 * b == 2 * (3 * a + 2 * b)
a shift is a product: a << 3 == a * 8
a shift of a sum: (a + b) << 2 == (a << 2) + (b << 2)
order is a chain: a < b and b < c | a < c
a chain of six: a <= b and b <= c and c <= d and d <= e and e < f | a < f
order is total: a < b or b < a or a == b
both ways is equal: a <= b and b <= a | a == b
a sum of small numbers: 0 <= a and a < 1000 and 0 <= b and b < 1000 | 0 <= a + b and a + b < 1999
a sum keeps the order: 0 <= a and a < b and b < 1000000 and 0 <= c and c < 1000000 | a + c < b + c
six small numbers: 0 <= a and a <= 9 and 0 <= b and b <= 9 and 0 <= c and c <= 9 \
and 0 <= d and d <= 9 and 0 <= e and e <= 9 and 0 <= f and f <= 9 | a + b + c + d + e + f <= 54
a count goes down: 0 < a | 0 <= a - 1 and a - 1 < a
a remainder is less: 0 <= a and 0 < b | 0 <= a % b and a % b < b
a remainder of any number: 0 < b | a % b < b
a remainder by ten: 0 <= a | 0 <= a % 10 and a % 10 < 10
quotient and remainder: b != 0 | (a // b) * b + a % b == a
a quotient is no greater: 0 <= a and 0 < b | 0 <= a // b and a // b <= a
the midpoint: 0 <= a and a <= b | a <= a + (b - a) // 2 and a + (b - a) // 2 <= b
half of a positive number: 0 < a | a // 2 < a
clamp: a <= b | a <= (a if c < a else b if b < c else c) and (a if c < a else b if b < c else c) <= b
the greater of two: a <= (b if a < b else a) and b <= (b if a < b else a)
the greater of two commutes: (b if a < b else a) == (a if b < a else b)
an absolute value: -2147483647 <= a | 0 <= (-a if a < 0 else a)
"""

SCALA = {ast.Add: "+", ast.Sub: "-", ast.Mult: "*", ast.FloorDiv: "/", ast.Mod: "%", ast.LShift: "<<", ast.Lt: "<",
         ast.LtE: "<=", ast.Gt: ">", ast.GtE: ">=", ast.Eq: "==", ast.NotEq: "!=", ast.And: "&&", ast.Or: "||"}
SMT = {ast.Add: "bvadd", ast.Sub: "bvsub", ast.Mult: "bvmul", ast.FloorDiv: "bvsdiv", ast.Mod: "bvsrem",
       ast.LShift: "bvshl", ast.Lt: "bvslt", ast.LtE: "bvsle", ast.Gt: "bvsgt", ast.GtE: "bvsge", ast.Eq: "=",
       ast.NotEq: "distinct", ast.And: "and", ast.Or: "or"}


def scala(e):
    if isinstance(e, ast.BoolOp):
        return "(" + f" {SCALA[type(e.op)]} ".join(map(scala, e.values)) + ")"
    if isinstance(e, ast.BinOp):
        return f"({scala(e.left)} {SCALA[type(e.op)]} {scala(e.right)})"
    if isinstance(e, ast.Compare):
        return f"({scala(e.left)} {SCALA[type(e.ops[0])]} {scala(e.comparators[0])})"
    if isinstance(e, ast.IfExp):
        return f"(if ({scala(e.test)}) {scala(e.body)} else {scala(e.orelse)})"
    if isinstance(e, ast.UnaryOp):
        return f"(-{scala(e.operand)})"
    return e.id if isinstance(e, ast.Name) else str(e.value)


def smt(e):
    if isinstance(e, ast.BoolOp):
        return f"({SMT[type(e.op)]} {' '.join(map(smt, e.values))})"
    if isinstance(e, ast.BinOp):
        return f"({SMT[type(e.op)]} {smt(e.left)} {smt(e.right)})"
    if isinstance(e, ast.Compare):
        return f"({SMT[type(e.ops[0])]} {smt(e.left)} {smt(e.comparators[0])})"
    if isinstance(e, ast.IfExp):
        return f"(ite {smt(e.test)} {smt(e.body)} {smt(e.orelse)})"
    if isinstance(e, ast.UnaryOp):
        return f"(bvneg {smt(e.operand)})"
    return e.id if isinstance(e, ast.Name) else f"(_ bv{e.value} 32)"


def sources(claim):
    *required, said = [ast.parse(it.strip(), mode="eval").body for it in claim.split("|")]
    names = sorted({it.id for e in [*required, said] for it in ast.walk(e) if isinstance(it, ast.Name)})
    parameters = ", ".join(f"{it}: Int" for it in names)
    requires = "".join(f"    require({scala(it)})\n" for it in required)
    text = f"object Claim {{\n  def claim({parameters}): Boolean = {{\n{requires}    {scala(said)}\n  }}.holds\n}}\n"
    declared = "".join(f"(declare-const {it} (_ BitVec 32))\n" for it in names)
    asserted = "".join(f"(assert {smt(it)})\n" for it in required)
    return text, f"{declared}{asserted}(assert (not {smt(said)}))\n(check-sat)\n"


def timed(words):
    begun = time.perf_counter()
    try:
        out = subprocess.run(words, capture_output=True, text=True, timeout=60).stdout
    except subprocess.TimeoutExpired:
        out = "(no answer in 60 s)"
    return out, (time.perf_counter() - begun) * 1000


def main():
    top = os.path.dirname(os.path.dirname(os.path.abspath(__file__)))
    program = sys.argv[1] if len(sys.argv) > 1 else f"{top}/pureproof"
    z3 = shutil.which("z3")
    print("| Claim | Verdict | ms | z3 | ms |\n|---|---|---|---|---|")
    valid = 0
    with tempfile.TemporaryDirectory() as room:
        for line in filter(None, CLAIMS.splitlines()):
            name, claim = line.split(": ", 1)
            text, asked = sources(claim)
            for file, body in (("claim.scala", text), ("claim.smt2", asked)):
                with open(f"{room}/{file}", "w", encoding="utf-8") as it:
                    it.write(body)
            out, ms = timed([program, f"{room}/claim.scala"])
            said = out.split(": ", 1)[1].split("\n")[0].split(",") if ": " in out else [out.strip()]
            verdict = f"{said[0]}, {said[-1].strip()}" if said[0].startswith("open") else said[0]
            valid += said[0] == "valid"
            beside = ("", "")
            if z3:
                told, took = timed([z3, "-T:60", f"{room}/claim.smt2"])
                beside = ({"unsat": "valid", "sat": "invalid"}.get(told.strip(), told.strip()), f"{took:.0f}")
            cells = [f"{name}: `{claim.replace('|', 'implies')}`", verdict, f"{ms:.0f}", *beside]
            print("|", " | ".join(cells), "|", flush=True)
    print(f"\n{valid} of {len([it for it in CLAIMS.splitlines() if it])} are valid")


main()
