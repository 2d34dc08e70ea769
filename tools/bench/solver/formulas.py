#!/usr/bin/env python3
"""Writes a mix of formulas in DIMACS CNF into the folder that is named.

Miters of adders and multipliers of different shape, unrolled counters and pipelines, pigeons, parity, and random
clauses of three literals near the threshold. Each is a fraction of a second to some ten seconds for minisat."""
import random
import sys


def write(folder, name, variables, clauses):
    with open(f"{folder}/{name}.cnf", "w") as file:
        file.write(f"p cnf {variables} {len(clauses)}\n")
        for clause in clauses:
            file.write(" ".join(map(str, clause)) + " 0\n")


def pigeons(count):
    """One pigeon more than holes."""
    holes = count - 1

    def sits(pigeon, hole):
        return pigeon * holes + hole + 1

    clauses = [[sits(p, h) for h in range(holes)] for p in range(count)]
    for h in range(holes):
        for p in range(count):
            clauses += [[-sits(q, h), -sits(p, h)] for q in range(p)]
    return count * holes, clauses


def at_random(variables, seed, ratio=4.26):
    """Clauses of three literals."""
    source = random.Random(seed)
    clauses = []
    for _ in range(int(variables * ratio)):
        chosen = source.sample(range(1, variables + 1), 3)
        clauses.append([v if source.random() < 0.5 else -v for v in chosen])
    return variables, clauses


class Circuit:
    """Gates as clauses. A signal is a literal; words are lists of signals, the lowest bit first."""

    def __init__(self):
        self.variables = 0
        self.clauses = []
        self.constant = None

    def new(self):
        self.variables += 1
        return self.variables

    def word(self, bits):
        return [self.new() for _ in range(bits)]

    def false(self):
        if self.constant is None:
            self.constant = self.new()
            self.clauses.append([-self.constant])
        return self.constant

    def both(self, a, b):
        out = self.new()
        self.clauses += [[-out, a], [-out, b], [out, -a, -b]]
        return out

    def either(self, a, b):
        return -self.both(-a, -b)

    def differ(self, a, b):
        out = self.new()
        self.clauses += [[-out, a, b], [-out, -a, -b], [out, -a, b], [out, a, -b]]
        return out

    def choose(self, condition, yes, no):
        out = self.new()
        self.clauses += [
            [-condition, -yes, out],
            [-condition, yes, -out],
            [condition, -no, out],
            [condition, no, -out],
        ]
        return out

    def choose_word(self, condition, yes, no):
        return [self.choose(condition, a, b) for a, b in zip(yes, no)]

    def half(self, a, b):
        return self.differ(a, b), self.both(a, b)

    def full(self, a, b, carry):
        half = self.differ(a, b)
        either = -self.both(-self.both(a, b), -self.both(half, carry))
        return self.differ(half, carry), either

    def ripple(self, x, y, carry=None):
        """The sum of two words, bit after bit, as wide as they are."""
        total = []
        carry = self.false() if carry is None else carry
        for a, b in zip(x, y):
            bit, carry = self.full(a, b, carry)
            total.append(bit)
        return total

    def lookahead(self, x, y):
        """The same sum by carries that are combined in pairs (Kogge and Stone)."""
        halves = [self.half(a, b) for a, b in zip(x, y)]
        pairs = [(carries, passes) for passes, carries in halves]
        step = 1
        while step < len(x):
            after = list(pairs)
            for i in range(step, len(x)):
                carries, passes = pairs[i]
                lower, through = pairs[i - step]
                after[i] = (self.either(carries, self.both(passes, lower)), self.both(passes, through))
            pairs = after
            step *= 2
        carries = [self.false()] + [c for c, _ in pairs]
        return [self.differ(halves[i][0], carries[i]) for i in range(len(x))]

    def select(self, x, y, block=3):
        """The same sum in blocks, each for both carries."""
        total = []
        carry = self.false()
        for start in range(0, len(x), block):
            a, b = x[start : start + block], y[start : start + block]
            ways = []
            for first in (self.false(), -self.false()):
                bits, running = [], first
                for p, q in zip(a, b):
                    bit, running = self.full(p, q, running)
                    bits.append(bit)
                ways.append(bits + [running])
            chosen = self.choose_word(carry, ways[1], ways[0])
            total += chosen[:-1]
            carry = chosen[-1]
        return total

    def rows(self, x, y, width):
        zero = self.false()
        rows = []
        for i, bit in enumerate(y):
            row = [zero] * i + [self.both(other, bit) for other in x] + [zero] * width
            rows.append(row[:width])
        return rows

    def product(self, x, y, width):
        """Row by row, the lowest bit of y first."""
        total = [self.false()] * width
        for row in self.rows(x, y, width):
            total = self.ripple(total, row)
        return total

    def columns(self, x, y, width):
        """The same product by columns, three bits of one weight at a time (Wallace)."""
        columns = [[] for _ in range(width + 1)]
        for i, a in enumerate(x):
            for j, b in enumerate(y):
                if i + j < width:
                    columns[i + j].append(self.both(a, b))
        for k in range(width):
            while len(columns[k]) > 2:
                bit, carry = self.full(*[columns[k].pop(0) for _ in range(3)])
                columns[k].append(bit)
                columns[k + 1].append(carry)
        zero = self.false()
        padded = [(column + [zero, zero])[:2] for column in columns[:width]]
        return self.ripple([p[0] for p in padded], [p[1] for p in padded])

    def claim_differ(self, one, other):
        """Some bit of the two words differs."""
        self.clauses.append([self.differ(a, b) for a, b in zip(one, other)])
        return self.variables, self.clauses


def sums(bits, count, first, second, seed):
    """A sum of words from the left by one adder, and in another order as a tree by another adder."""
    circuit = Circuit()
    words = [circuit.word(bits) for _ in range(count)]
    one = words[0]
    for word in words[1:]:
        one = getattr(circuit, first)(one, word)
    random.Random(seed).shuffle(words)
    while len(words) > 1:
        words = words[2:] + [getattr(circuit, second)(words[0], words[1])]
    return circuit.claim_differ(one, words[0])


def products(bits, width, shape="product"):
    """x * y by rows and y * x by another shape differ in one of the lowest bits."""
    circuit = Circuit()
    x, y = circuit.word(bits), circuit.word(bits)
    return circuit.claim_differ(circuit.product(x, y, width), getattr(circuit, shape)(y, x, width))


def distributed(bits):
    """x * (y + z) and x * y + x * z differ, all of one width."""
    circuit = Circuit()
    x, y, z = circuit.word(bits), circuit.word(bits), circuit.word(bits)
    one = circuit.product(x, circuit.ripple(y, z), bits)
    return circuit.claim_differ(one, circuit.ripple(circuit.product(x, y, bits), circuit.product(x, z, bits)))


def factors(bits, number):
    """Two factors, both above 1, of a number."""
    circuit = Circuit()
    x, y = circuit.word(bits), circuit.word(bits)
    for word in (x, y):
        circuit.clauses.append(word[1:])
    for k, bit in enumerate(circuit.product(x, y, 2 * bits)):
        circuit.clauses.append([bit if number >> k & 1 else -bit])
    return circuit.variables, circuit.clauses


def counters(bits, steps, missed):
    """A counter that adds 1, 2 or 3 as its inputs say, beside a sum of the inputs; at the end they differ, or the
    counter holds what no run reaches in so few steps."""
    circuit = Circuit()
    zero = circuit.false()
    state = [zero] * bits
    total = [zero] * bits
    for _ in range(steps):
        a, b = circuit.new(), circuit.new()
        state = circuit.choose_word(a, circuit.ripple(state, [-zero] + [zero] * (bits - 1)), state)
        state = circuit.choose_word(b, circuit.ripple(state, [zero, -zero] + [zero] * (bits - 2)), state)
        total = circuit.lookahead(total, [a, b] + [zero] * (bits - 2))
    if missed:
        for k, bit in enumerate(state):
            circuit.clauses.append([bit if (3 * steps + 1) >> k & 1 else -bit])
        return circuit.variables, circuit.clauses
    return circuit.claim_differ(state, total)


def pipeline(bits, cycles, seed):
    """A pipeline of two steps that may stall, which multiplies and then adds to a register, beside the same without
    stages. After so many cycles and one to empty it, the registers differ."""
    circuit = Circuit()
    zero = circuit.false()
    register, plain = circuit.word(bits), None
    plain = list(register)
    held, is_held = [zero] * bits, zero
    source = random.Random(seed)
    for _ in range(cycles):
        x, y, go = circuit.word(bits), circuit.word(bits), circuit.new()
        register = circuit.choose_word(is_held, circuit.ripple(register, held), register)
        if source.random() < 0.5:
            x = circuit.choose_word(circuit.new(), x, y)
        held, is_held = circuit.columns(x, y, bits), go
        plain = circuit.choose_word(go, circuit.lookahead(plain, circuit.product(x, y, bits)), plain)
    register = circuit.choose_word(is_held, circuit.ripple(register, held), register)
    return circuit.claim_differ(register, plain)


def parity(count, seed):
    """A word's parity along a chain in one order and along one in another order differ."""
    circuit = Circuit()
    word = circuit.word(count)
    ends = []
    for turn in range(2):
        order = list(word)
        if turn:
            random.Random(seed).shuffle(order)
        end = order[0]
        for bit in order[1:]:
            end = circuit.differ(end, bit)
        ends.append(end)
    return circuit.claim_differ(ends[:1], ends[1:])


MIX = {
    "sums8_4": lambda: sums(8, 4, "ripple", "lookahead", 1),
    "sums9_4": lambda: sums(9, 4, "ripple", "select", 1),
    "sums10_4": lambda: sums(10, 4, "lookahead", "select", 2),
    "sums12_4": lambda: sums(12, 4, "ripple", "lookahead", 1),
    "sums8_5": lambda: sums(8, 5, "ripple", "select", 1),
    "product6": lambda: products(6, 12),
    "product7": lambda: products(7, 14),
    "columns6": lambda: products(6, 12, "columns"),
    "columns7": lambda: products(7, 14, "columns"),
    "low8": lambda: products(8, 8, "columns"),
    "low9": lambda: products(9, 9, "columns"),
    "distributed6": lambda: distributed(6),
    "distributed7": lambda: distributed(7),
    "prime12": lambda: factors(12, 9999991),
    "counters8": lambda: counters(8, 12, False),
    "counters10": lambda: counters(10, 20, True),
    "pipeline5": lambda: pipeline(5, 3, 1),
    "pipeline6": lambda: pipeline(6, 2, 2),
    "pigeons8": lambda: pigeons(8),
    "pigeons9": lambda: pigeons(9),
    "parity30": lambda: parity(30, 1),
    "parity34": lambda: parity(34, 2),
    "random200_1": lambda: at_random(200, 1),
    "random200_2": lambda: at_random(200, 2),
    "random230_5": lambda: at_random(230, 5),
    "random250_3": lambda: at_random(250, 3),
    "random250_4": lambda: at_random(250, 4),
}


def main():
    folder = sys.argv[1]
    for name in sys.argv[2:] or MIX:
        write(folder, name, *MIX[name]())


main()
