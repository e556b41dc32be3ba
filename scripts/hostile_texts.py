#!/usr/bin/env python3
"""Runs the built program on texts that are made of pieces of the repository's own sources: cut, doubled, swapped and
nested. The gate doesn't run it.

    hostile_texts.py [--seed 1] [--texts 20000] [--first 1] [--minutes M] [--program PROGRAM]

Each text comes with words of a random mode. It must be answered within 2 seconds of processor time and 1 GB, with a
status from 0 to 7, and with one line on the error output exactly where the status is 3 or more, and then with nothing
on the standard output. A text that isn't is told and kept in a file. A text hangs on the seed and its number alone, so
`--first N --texts 1` runs one again. With `--minutes` it ends then at the latest. Ends with the figures.
"""
import argparse
import os
import random
import re
import resource
import signal
import sys
import tempfile
import time
from collections import Counter
from pathlib import Path

ROOT = Path(__file__).resolve().parent.parent
SECONDS = 2
BYTES = 1_000_000_000
LONGEST = 300_000
TOKEN = re.compile(rb"\s+|\w+|[!#%&*+\-/:<=>?@\\^|~]+|.", re.DOTALL)
OPENED = {b"(": b")", b"[": b"]", b"{": b"}"}
WORDS = (b"abstract case class def else ensuring extends false holds if match object require decreases assert sealed "
         b"trait true val import package _ . , ; : = => @ Int Boolean Int.MinValue Int.MaxValue while var new").split()
NUMBERS = b"0 1 2 -1 31 32 2147483647 -2147483648 2147483648 0xFFFFFFFF 0x80000000 007 99999999999".split()
GROUPS = [b"+ - * / % & | ^".split(), b"< <= > >= == !=".split(), b"&& || & | ^ == !=".split(), b"<< >> >>>".split(),
          b"true false".split(), b"Int Boolean".split(), b"( [ {".split(), b") ] }".split()]
BYTES_APART = [b"\xff", b"\x00", b"\r", b"\x0c", b"\xc3\xa9", b"\xe2\x88\x80", b"\xf0\x9d\x91\x93", b'"', b"$", b"/*",
               b"*/", b"//", b"\xef\xbb\xbf", b"\xed\xa0\x80"]


def unfolded(line):
    """The sources of one line of a table of cases, in which a newline is written as two characters."""
    return [part.replace(b"\\n", b"\n").replace(b"\\t", b"\t").replace(b"\\x", b"\xff") for part in line.split(b"\\s")]


def sources():
    """The tokens of each source in four lists: examples, whole programs, and sources for the parser and for typing."""
    files = sorted(ROOT.glob("examples/**/*.scala")) + sorted(ROOT.glob("crates/*/data/*.scala"))
    pools = [[path.read_bytes() for path in files], [], [], []]
    for line in (ROOT / "crates/pp_answer_cases/stdin").read_bytes().split(b"\n"):
        pools[1] += unfolded(line.partition(b"|")[2])
    for place, name in (2, "units"), (3, "typing"):
        for line in (ROOT / f"crates/pp_source_cases/data/{name}.txt").read_bytes().split(b"\n"):
            pools[place] += unfolded(line)
    return [[TOKEN.findall(each) for each in pool if each] for pool in pools]


def one_of(chance, pools):
    return chance.choice(chance.choices(pools, weights=(6, 10, 2, 1))[0])


def span(chance, tokens, longest=60):
    """A random part of the tokens: a few, or what stands between a bracket and its mate, or a line."""
    if not tokens:
        return 0, 0
    start = chance.randrange(len(tokens))
    kind = chance.random()
    if kind < 0.4:
        for at in range(start, min(start + 200, len(tokens))):
            if tokens[at] in OPENED:
                depth = 0
                for end in range(at, len(tokens)):
                    depth += tokens[end] in OPENED
                    depth -= tokens[end] in OPENED.values()
                    if depth == 0:
                        return at, end + 1
                break
    if kind < 0.6:
        while start > 0 and b"\n" not in tokens[start - 1]:
            start -= 1
        end = start + 1
        while end < len(tokens) and b"\n" not in tokens[end - 1]:
            end += 1
        return start, end
    return start, min(len(tokens), start + chance.randint(1, longest))


def same_kind(chance, token, tokens):
    """A token that can stand in the place of this one."""
    for group in GROUPS:
        if token in group:
            return chance.choice(group)
    if token.isdigit():
        return chance.choice(NUMBERS)
    if re.fullmatch(rb"\w+", token):
        names = [each for each in tokens if re.fullmatch(rb"[A-Za-z_]\w*", each)]
        return chance.choice(names) if names else token
    return token


def is_sign(token):
    """Whether the token is an operator, a number or a truth value, for which another can mostly stand."""
    return token.isdigit() or any(token in group for group in GROUPS[:5])


def altered(chance, tokens, pools, kinds):
    """The tokens, altered in one place."""
    from_, to = span(chance, tokens)
    piece = tokens[from_:to]
    kind = chance.choice(kinds)
    if kind == 0:
        return tokens[:from_]
    if kind == 1:
        return tokens[:from_] + tokens[to:]
    if kind == 2:
        times = chance.choice([1, 1, 1, 2, 8, 60, 1000])
        return tokens[:to] + piece * times + tokens[to:]
    if kind == 3:
        other = span(chance, tokens)
        if to <= other[0]:
            return tokens[:from_] + tokens[other[0]:other[1]] + tokens[to:other[0]] + piece + tokens[other[1]:]
        return tokens[:from_] + tokens[other[0]:other[1]] + tokens[to:]
    if kind == 4:
        opened, closed = chance.choice([(b"(", b")"), (b"{", b"}"), (b"[", b"]"), (b"!(", b")"), (b"/*", b"*/"),
                                        (b"-(", b")"), (b"if (true) ", b" else 0"), (b"{ val v = 1; ", b"}")])
        times = chance.choice([1, 1, 2, 30, 63, 64, 65, 5000])
        return tokens[:from_] + [opened] * times + piece + [closed] * times + tokens[to:]
    if kind == 5:
        other = one_of(chance, pools)
        piece = other[slice(*span(chance, other))]
        return tokens[:from_] + piece + tokens[chance.choice([from_, to]):]
    if kind == 6:
        return tokens[:from_] + [chance.choice(BYTES_APART)] + tokens[from_:]
    if kind == 7:
        return tokens[:from_] + [b" ", chance.choice(WORDS), b" "] + tokens[from_:]
    for _ in range(chance.choice([1, 1, 2, 5])):
        places = [at for at, token in enumerate(tokens) if kind == 8 or is_sign(token)]
        if places:
            at = chance.choice(places)
            tokens = tokens[:at] + [same_kind(chance, tokens[at], tokens)] + tokens[at + 1:]
    return tokens


def made(chance, pools):
    """A text. Half of them have only other signs in the place of signs, so that many of these are programs."""
    tokens = one_of(chance, pools)
    if chance.random() < 0.05:
        tokens = tokens + [b"\n"] + one_of(chance, pools)
    kinds = chance.choice([range(10), (9,), (9,), (1, 2, 3, 4, 8, 9)])
    for _ in range(chance.choice([1, 1, 2, 3, 6])):
        tokens = altered(chance, tokens, pools, kinds)[:LONGEST]
    text = b"".join(tokens)
    if chance.random() < 0.05:
        text = text[:chance.randrange(len(text) + 1)]
    return text[:LONGEST]


def words_for(chance, text):
    """Words, with FILE for the file."""
    kind = chance.random()
    words = []
    if kind < 0.25:
        names = re.findall(rb"def (\w+)", text) or [b"f"]
        name = chance.choice(names).decode("utf-8", "replace")
        words = ["--mode", "run", "--function", name + chance.choice(["", "", "", "[Int]"])]
        if chance.random() < 0.7:
            words += [f"--fuel={chance.choice([0, 1, 2, 3, 5, 8])}"]
        else:
            words += ["--fuel=12"]
    else:
        if kind < 0.45:
            words = ["--mode=list"]
        else:
            words = [f"--lemmas={chance.choice([1, 10, 100, 1000])}"]
            words += [f"--gates={chance.choice([1, 1000, 20000, 200000])}"]
        if chance.random() < 0.5:
            words += ["--rounds", str(chance.randint(0, 12))]
        if chance.random() < 0.5:
            words += ["--depth", str(chance.randint(1, 6))]
    if chance.random() < 0.03:
        words.insert(chance.randrange(len(words) + 1), chance.choice(["--", "-", "--mode", "--fuel=0", "", "absent"]))
    words.insert(0 if chance.random() < 0.5 else len(words), "FILE")
    return words


def run(program, words, out, err):
    """The status as wait4 gives it, and what the run took; its memory is at least that of this script."""
    child = os.fork()
    if child == 0:
        os.dup2(out, 1)
        os.dup2(err, 2)
        resource.setrlimit(resource.RLIMIT_AS, (BYTES, BYTES))
        resource.setrlimit(resource.RLIMIT_CPU, (SECONDS + 1, SECONDS + 1))
        resource.setrlimit(resource.RLIMIT_CORE, (0, 0))
        hard = resource.getrlimit(resource.RLIMIT_STACK)[1]
        resource.setrlimit(resource.RLIMIT_STACK, (hard, hard))
        try:
            os.execv(program, [program, *words])
        finally:
            os._exit(127)
    _, status, usage = os.wait4(child, 0)
    return status, usage


def taken(file):
    """What a file took, which is empty again then."""
    size = os.lseek(file, 0, os.SEEK_CUR)
    begins = os.pread(file, 2000, 0)
    os.ftruncate(file, 0)
    os.lseek(file, 0, os.SEEK_SET)
    return size, begins


def why_not(status, seconds, out, err):
    """What is wrong with an answer, or nothing."""
    if os.WIFSIGNALED(status):
        return f"signal {signal.Signals(os.WTERMSIG(status)).name}"
    code = os.WEXITSTATUS(status)
    if code > 7:
        return f"status {code}"
    if seconds > SECONDS:
        return f"{seconds:.1f} seconds"
    if code <= 2 and err[0] or code > 2 and (out[0] or err[1].count(b"\n") != 1 or not err[1].endswith(b"\n")):
        return f"status {code} with {out[0]} bytes on out and {err[0]} bytes on err"
    return None


def main():
    parser = argparse.ArgumentParser(description=__doc__, formatter_class=argparse.RawDescriptionHelpFormatter)
    parser.add_argument("--seed", type=int, default=1)
    parser.add_argument("--texts", type=int, default=20_000)
    parser.add_argument("--first", type=int, default=1)
    parser.add_argument("--minutes", type=float, default=float("inf"))
    parser.add_argument("--program", default=str(ROOT / "crates/pureproof/out/pureproof"))
    chosen = parser.parse_args()
    program = os.path.abspath(chosen.program)
    if not os.access(program, os.X_OK):
        sys.exit(f"hostile_texts: no program at {program}")
    pools = sources()
    folder = Path(tempfile.mkdtemp(prefix="hostile_texts."))
    os.chdir(folder)
    out = os.open("out", os.O_RDWR | os.O_CREAT)
    err = os.open("err", os.O_RDWR | os.O_CREAT)
    counts, wrong, slowest, largest = Counter(), 0, (0.0, 0), (0, 0)
    ends = time.monotonic() + 60 * chosen.minutes
    for number in range(chosen.first, chosen.first + chosen.texts):
        if time.monotonic() > ends:
            break
        chance = random.Random(f"{chosen.seed} {number}")
        text = made(chance, pools)
        words = words_for(chance, text)
        Path("a.scala").write_bytes(text)
        status, usage = run(program, ["a.scala" if word == "FILE" else word for word in words], out, err)
        seconds = usage.ru_utime + usage.ru_stime
        slowest = max(slowest, (seconds, number))
        largest = max(largest, (usage.ru_maxrss, number))
        fault = why_not(status, seconds, taken(out), taken(err))
        counts[os.WEXITSTATUS(status) if os.WIFEXITED(status) else "signal"] += 1
        if fault is not None:
            wrong += 1
            kept = folder / f"{number}.scala"
            kept.write_bytes(text)
            print(f"hostile_texts: text {number}: {fault}: {' '.join(words)}: {kept}", flush=True)
    for name in "out", "err", "a.scala":
        Path(name).unlink(missing_ok=True)
    if wrong == 0:
        folder.rmdir()
    total = sum(counts.values())
    shown = ", ".join(f"{counts[each]} of status {each}" for each in sorted(counts, key=str))
    print(f"{total} texts: {shown}")
    print(f"slowest: {slowest[0]:.2f} s, text {slowest[1]}; largest: {largest[0] / 1000:.0f} MB, text {largest[1]}")
    print(f"{wrong} wrong")
    sys.exit(1 if wrong else 0)


main()
