"""The circuits of pp_bits, pp_products and pp_shifts, gate for gate, on a model: what circuits.sh and solver.sh count with."""


class Circuit:
    """Gates that are shared; literals are numbers, and 1 is the constant."""

    def __init__(self, majority, odd_of_three=False):
        self.majority, self.odd_of_three = majority, odd_of_three
        self.gates, self.known = [("truth",)], {("truth",): 1}

    def gate(self, *gate):
        if gate not in self.known:
            self.gates.append(gate)
            self.known[gate] = len(self.gates)
        return self.known[gate]

    def word(self, bits):
        return [self.gate("input", len(self.gates) + 1) for _ in range(bits)]

    def both(self, a, b):
        if a == 1 or a == b: return b
        if b == 1: return a
        if a == -1 or b == -1 or a == -b: return -1
        return self.gate("and", *sorted((a, b), key=abs))

    def either(self, a, b):
        return -self.both(-a, -b)

    def odd(self, a, b):
        if abs(a) == 1: return -b if a == 1 else b
        if abs(b) == 1: return -a if b == 1 else a
        if abs(a) == abs(b): return -1 if a == b else 1
        out = self.gate("xor", *sorted((abs(a), abs(b))))
        return out if (a < 0) == (b < 0) else -out

    def odd_of(self, a, b, c):
        on = {abs(a), abs(b), abs(c)}
        if not self.odd_of_three or len(on) < 3 or 1 in on: return self.odd(self.odd(a, b), c)
        out = self.gate("odd", *sorted(on))
        return out if (a < 0) + (b < 0) + (c < 0) in (0, 2) else -out

    def choose(self, c, a, b):
        if c == 1 or a == b: return a
        if c == -1: return b
        if a == -b: return self.odd(c, b)
        if abs(a) in (1, abs(c)): return self.either(c, b) if a in (1, c) else self.both(-c, b)
        if abs(b) in (1, abs(c)): return self.either(-c, a) if b in (1, -c) else self.both(c, a)
        if c < 0: c, a, b = -c, b, a
        return -self.gate("mux", c, -a, -b) if a < 0 else self.gate("mux", c, a, b)

    def most(self, a, b, c):
        if a == b or a == c: return a
        if b == c: return b
        if a == -b: return c
        if a == -c: return b
        if b == -c: return a
        a, b, c = sorted((a, b, c), key=abs)
        if a == 1: return self.either(b, c)
        if a == -1: return self.both(b, c)
        return -self.gate("majority", -a, -b, -c) if a < 0 else self.gate("majority", a, b, c)

    def carried(self, a, b, carry):
        digits = []
        for x, y in zip(a, b):
            digits.append(self.odd_of(x, y, carry))
            carry = self.most(x, y, carry) if self.majority else self.choose(self.odd(x, y), carry, x)
        return digits, carry

    def wrapped(self, a, b, carry):
        if not self.majority or not a:
            return self.carried(a, b, carry)[0]
        digits, carry = self.carried(a[:-1], b[:-1], carry)
        return digits + [self.odd_of(a[-1], b[-1], carry)]

    def add(self, a, b):
        return self.wrapped(a, b, -1)

    def sub(self, a, b):
        return self.wrapped(a, [-y for y in b], 1)

    def less(self, a, b):
        out = -1
        for x, y in zip(a, b):
            out = self.most(-x, y, out) if self.majority else self.choose(self.odd(x, y), y, out)
        return out

    def equal(self, a, b):
        out = 1
        for x, y in zip(a, b):
            out = self.both(out, -self.odd(x, y))
        return out

    def mul(self, a, b):
        if not a: return []
        rest = self.mul(a[:-1], b[1:])
        row = [self.choose(b[0], x, -1) for x in a]
        return [row[0]] + self.add(row[1:], rest)

    def divide(self, a, d):
        quotient, rest = [], [] if self.majority else [-1] * len(d)
        for low in reversed(a):
            wide = [low] + rest
            places = min(len(wide), len(d))
            cut = (d + [-1])[: len(wide)]
            greater = -1
            for x in reversed(d[places:]):
                greater = self.either(x, greater)
            less, carry = self.carried(wide, [-y for y in cut], 1)
            stays = self.either(-carry, greater)
            rest = [self.choose(stays, x, y) for x, y in zip(wide[:places], less[:places])]
            quotient.insert(0, -stays)
        return quotient, rest + [-1] * (len(d) - len(rest))

    def shl(self, a, distance):
        for i, choice in enumerate(distance):
            places = min(2**i, len(a))
            moved = [-1] * places + a[: len(a) - places]
            a = [self.choose(choice, x, y) for x, y in zip(moved, a)]
        return a

    def clauses(self):
        made = []
        for place, (kind, *on) in enumerate(self.gates):
            o = place + 1
            if kind == "truth": made += [[o]]
            if kind == "and": a, b = on; made += [[-o, a], [-o, b], [o, -a, -b]]
            if kind == "xor": a, b = on; made += [[-o, a, b], [-o, -a, -b], [o, -a, b], [o, a, -b]]
            if kind == "mux": c, a, b = on; made += [[-c, -o, a], [-c, o, -a], [c, -o, b], [c, o, -b]]
            if kind == "majority":
                a, b, c = on
                for x, y in ((a, b), (a, c), (b, c)):
                    made += [[-o, x, y], [o, -x, -y]]
            if kind == "odd":
                a, b, c = on
                for x, y in ((b, c), (-b, -c)):
                    made += [[-o, a, x, y], [o, -a, x, y], [-o, -a, x, -y], [o, a, x, -y]]
        return made


def constant(value, bits):
    return [1 if value >> i & 1 else -1 for i in range(bits)]
