#!/usr/bin/env python3
"""Draws random Verilog expressions and lets Icarus Verilog evaluate them. Writes rows of a table."""
import random, subprocess, sys
R = random.Random(20250611)
WIDTHS = [1, 4, 8, 9, 16, 33, 64, 127, 128]
# name, signed, left, right
NAMES = [(f"a{w}", False, w - 1, 0) for w in WIDTHS] + [(f"s{w}", True, w - 1, 0) for w in WIDTHS] + [("d8", False, 0, 7), ("e16", True, 19, 4)]
# name, signed, left, right, first, last
MEMORIES = [("m8", False, 7, 0, 0, 3), ("n9", True, 8, 0, 5, 2)]
PARAMETERS = [("p8", False, 7, 0, 200), ("q9", True, 8, 0, 509)]
WIDTH = {n: abs(l - r) + 1 for n, s, l, r in NAMES}
WIDTH.update({n: 8 if n == "m8" else 9 for n, *_ in MEMORIES}); WIDTH.update({"p8": 8, "q9": 9})
SETTINGS = 6

def drawn_value(w):
    return R.choice([0, 1, (1 << w) - 1, 1 << (w - 1), (1 << (w - 1)) - 1, R.getrandbits(w), R.getrandbits(w), R.getrandbits(w), R.getrandbits(w)]) % (1 << w)

SCALARS = [[drawn_value(WIDTH[n[0]]) for n in NAMES] for _ in range(SETTINGS)]
WORDS = [[[drawn_value(WIDTH[m[0]]) for _ in range(4)] for m in MEMORIES] for _ in range(SETTINGS)]

class E:  # verilog text, the same with operators after their operands, width, kind of node
    def __init__(s, v, p, w, kind, loose=False): s.v, s.p, s.w, s.kind, s.loose = v, p, w, kind, loose

def name(signed=None):
    pool = [(n, s) for n, s, *_ in NAMES] + [(n, s) for n, s, *_ in PARAMETERS]
    n = R.choice([n for n, s in pool if signed is None or s == signed])
    return E(n, n, WIDTH[n], "name")
def decimal():
    k = R.choice([0, 1, 2, 3, 7, 8, 9, 31, 100, 255, 256, 2147483647, R.getrandbits(31)])
    return E(str(k), str(k), 32, "number", True)
def sized(signed=False):
    w = R.choice(WIDTHS); k = drawn_value(w); t = f"{w}'{'s' if signed else ''}d{k}"
    return E(t, t, w, "number")
def leaf():
    return R.choice([name, name, name, name, decimal, sized, lambda: sized(True)])()
def index(low, high):
    k = R.random()
    if k < 0.5: n = R.randint(low, high); return E(str(n), str(n), 32, "number")
    if k < 0.8: n = R.choice(["a1", "a4", "s4"]); return E(n, n, WIDTH[n], "name")
    if k < 0.9:
        n = R.choice(["a4", "a8"]); m = R.choice([1, 2, 3]); return E(f"({n} & {m})", f"{n} {m} &", 32, "binary")
    n = R.randint(low, high); return E(f"8'sd{n}", f"8'sd{n}", 8, "number")
def bit_select():
    n, s, l, r = R.choice(NAMES); i = index(min(l, r), max(l, r)); return E(f"{n}[{i.v}]", f"{i.p} {n}[]", 1, "select")
def word_select():
    n, s, l, r, f, t = R.choice(MEMORIES); i = index(min(f, t), max(f, t)); return E(f"{n}[{i.v}]", f"{i.p} {n}[]", WIDTH[n], "select")
def word_bit():
    n, s, l, r, f, t = R.choice(MEMORIES); i = index(min(f, t), max(f, t)); j = index(r, l)
    return E(f"{n}[{i.v}][{j.v}]", f"{i.p} {j.p} {n}[][]", 1, "select")
def outside():
    """a bit or a word that is not there, masked by zeros"""
    x = name(); n = R.choice(["a8", "s9", "d8", "e16", "m8", "n9"]); i = R.choice(["9", "20", "200", "-1", "-200"])
    p = i if i[0] != "-" else i[1:] + " u-"
    w = x.w + (WIDTH[n] if n in ("m8", "n9") else 1)
    if w > 128: return outside()
    return E(f"({{{n}[{i}], {x.v}}} & {{{x.w}'d{(1 << x.w) - 1}}})", f"{p} {n}[] {x.p} {{2}} {x.w}'d{(1 << x.w) - 1} {{1}} &", w, "binary")

def operand(d):
    if d == 0 or R.random() < 0.35: return leaf()
    return R.choice(ANY)(d - 1)
def unary(op):
    def f(d):
        x = operand(d)
        join = "," if x.kind == "prefix" and R.random() < 0.7 else ""
        return E(f"({op} {x.v})", f"{x.p} {join}u{op}", x.w if op in "+-~" else 1, "prefix", op in "+-~" and x.loose)
    return f
def binary(op):
    def f(d):
        x, y = operand(d), operand(d)
        if R.random() < 0.25: x = binary(R.choice(["+", "-", "&", "^"]))(0)
        join = "," if x.kind == "binary" and R.random() < 0.7 else ""
        return E(f"({x.v} {op} {y.v})", f"{x.p} {y.p} {join}{op}", max(x.w, y.w), "binary", x.loose or y.loose)
    return f
def shift(op):
    def f(d):
        x = operand(d) if R.random() < 0.8 else name(True)
        k = R.choice([0, 1, 3, x.w - 1, x.w, x.w + 1, 127, 128, 129, 200])
        y = R.choice([E(str(k), str(k), 32, "number"), E("a4", "a4", 4, "name"), E("a8", "a8", 8, "name"), E("s4", "s4", 4, "name"), E(f"8'd{k % 256}", f"8'd{k % 256}", 8, "number")])
        join = "," if x.kind == "binary" and R.random() < 0.7 else ""
        return E(f"({x.v} {op} {y.v})", f"{x.p} {y.p} {join}{op}", x.w, "binary", x.loose)
    return f
def test(op):
    def f(d):
        x, y = operand(d), operand(d)
        if R.random() < 0.3: y = E(x.v, x.p, x.w, x.kind) if x.kind == "name" else leaf()
        join = "," if x.kind == "test" and R.random() < 0.7 else ""
        return E(f"({x.v} {op} {y.v})", f"{x.p} {y.p} {join}{op}", 1, "test")
    return f
def conditional(d):
    c, x, y = operand(d), operand(d), operand(d)
    if R.random() < 0.3: y = E("(a1 ? s9 : a16)", "a1 s9 a16 ?", 16, "conditional")
    join = "," if y.kind == "conditional" and R.random() < 0.7 else ""
    return E(f"({c.v} ? {x.v} : {y.v})", f"{c.p} {x.p} {y.p} {join}?", max(x.w, y.w), "conditional", x.loose or y.loose)
def concatenation(d):
    while True:
        xs = [R.choice([lambda: operand(d), name, bit_select])() for _ in range(R.randint(1, 3))]
        if sum(x.w for x in xs) <= 128 and not any(x.loose for x in xs): break
    return E("{" + ", ".join(x.v for x in xs) + "}", " ".join(x.p for x in xs) + " {%d}" % len(xs), sum(x.w for x in xs), "concatenation")
def cast(f, t):
    def g(d):
        x = operand(d); return E(f"{f}({x.v})", f"{x.p} {t}", x.w, "cast", x.loose)
    return g

FORMS = [("plain decimal", lambda d: decimal(), 2), ("sized number", lambda d: sized(), 2), ("signed sized number", lambda d: sized(True), 3),
    ("unsigned name", lambda d: name(False), 4), ("signed name", lambda d: name(True), 5), ("bit select", lambda d: bit_select(), 7),
    ("word of a memory", lambda d: word_select(), 7), ("bit of a word", lambda d: word_bit(), 5), ("out of range, masked", lambda d: outside(), 6)]
FORMS += [("unary " + o, unary(o), 5) for o in ("+", "-", "~")]
FORMS += [("reduction " + o, unary(o), 4) for o in ("!", "&", "~&", "|", "~|", "^", "~^")]
FORMS += [("binary " + o, binary(o), 6) for o in ("+", "-", "*", "&", "|", "^", "~^")]
FORMS += [("shift " + o, shift(o), 8) for o in ("<<", ">>", ">>>")]
FORMS += [("comparison " + o, test(o), 5) for o in ("<", "<=", ">", ">=", "==", "!=")]
FORMS += [("logical " + o, test(o), 4) for o in ("&&", "||")]
FORMS += [("conditional", conditional, 9), ("concatenation", concatenation, 8), ("$signed", cast("$signed", "$s"), 6), ("$unsigned", cast("$unsigned", "$u"), 6)]
ANY = [lambda d: bit_select(), lambda d: word_select()] + [f for n, f, k in FORMS[9:]]

def power(d):
    x = operand(d)
    y = R.choice([E(str(k), str(k), 32, "number") for k in (0, 1, 2, 3, 5, 8)] + [E("a4", "a4", 4, "name"), E("4'd3", "4'd3", 4, "number"), E("4'sd2", "4'sd2", 4, "number")])
    return E(f"({x.v} ** {y.v})", f"{x.p} {y.p} **", x.w, "binary", x.loose)
def replication(d):
    while True:
        k = R.randint(1, 5)
        xs = [R.choice([lambda: operand(d), name, bit_select])() for _ in range(R.randint(1, 2))]
        if k * sum(x.w for x in xs) <= 128 and not any(x.loose for x in xs): break
    return E(f"{{{k}{{" + ", ".join(x.v for x in xs) + "}}", f"{k} " + " ".join(x.p for x in xs) + " {{%d}}" % len(xs), k * sum(x.w for x in xs), "replication")
def bounds(left, right):
    a, b = sorted([R.randint(min(left, right), max(left, right)) for _ in range(2)])
    return (a, b) if left < right else (b, a)
def part(d):
    n, s, l, r = R.choice(NAMES); h, t = bounds(l, r); return E(f"{n}[{h}:{t}]", f"{h} {t} {n}[:]", abs(h - t) + 1, "select")
def indexed_part(op):
    def f(d):
        n, s, l, r = R.choice(NAMES); b = index(min(l, r), max(l, r)); k = R.randint(1, abs(l - r) + 1)
        return E(f"{n}[{b.v} {op} {k}]", f"{b.p} {k} {n}[{op}]", k, "select")
    return f
def word_part(d):
    n, s, l, r, f, t = R.choice(MEMORIES); i = index(min(f, t), max(f, t))
    if R.random() < 0.5:
        h, e = bounds(l, r); return E(f"{n}[{i.v}][{h}:{e}]", f"{i.p} {h} {e} {n}[][:]", abs(h - e) + 1, "select")
    op = R.choice(["+:", "-:"]); b = index(r, l); k = R.randint(1, 4)
    return E(f"{n}[{i.v}][{b.v} {op} {k}]", f"{i.p} {b.p} {k} {n}[][{op}]", k, "select")
def within(f):
    """the form by itself, or as an operand"""
    def g(d):
        x = f(d); k = R.random()
        if k < 0.4: return x
        y = name()
        if k < 0.7: return E(f"({x.v} + {y.v})", f"{x.p} {y.p} +", max(x.w, y.w), "binary")
        return E(f"($signed({x.v}) >>> 1)", f"{x.p} $s 1 >>>", x.w, "binary")
    return g

MORE = [("binary /", binary("/"), 10), ("binary %", binary("%"), 10), ("power", power, 10), ("replication", within(replication), 10),
    ("part select", within(part), 12), ("part select upward", within(indexed_part("+:")), 12), ("part select downward", within(indexed_part("-:")), 12),
    ("part of a word", within(word_part), 12)]

def declarations(setting):
    lines = []
    for (n, s, l, r), x in zip(NAMES, SCALARS[setting]):
        lines.append(f"reg {'signed ' if s else ''}[{l}:{r}] {n} = {WIDTH[n]}'d{x};")
    for n, s, l, r, x in PARAMETERS: lines.append(f"parameter {'signed ' if s else ''}[{l}:{r}] {n} = {x};")
    for n, s, l, r, f, t in MEMORIES: lines.append(f"reg {'signed ' if s else ''}[{l}:{r}] {n} [{f}:{t}];")
    lines.append("initial begin")
    for (n, s, l, r, f, t), ws in zip(MEMORIES, WORDS[setting]):
        for k, x in enumerate(ws): lines.append(f"  {n}[{min(f, t) + k}] = {WIDTH[n]}'d{x};")
    return lines + ["end"]

def run(rows):
    """rows: (setting, width, expression): what Icarus prints for each, as hexadecimal digits"""
    out = [None] * len(rows)
    for setting in range(SETTINGS):
        lines = ["module top;"] + declarations(setting)
        mine = [(i, w, e) for i, (s, w, e) in enumerate(rows) if s == setting]
        if not mine: continue
        for i, w, e in mine: lines.append(f"reg [{w - 1}:0] t{i};")
        lines.append("initial begin #1;")
        for i, w, e in mine: lines.append(f't{i} = {e.v}; $display("{i} %h", t{i});')
        lines += ["end", "endmodule"]
        open("top.v", "w").write("\n".join(lines) + "\n")
        subprocess.run(["iverilog", "-g2005", "-gstrict-expr-width", "-o", "top.vvp", "top.v"], check=True)
        for line in subprocess.run(["vvp", "-n", "top.vvp"], check=True, capture_output=True, text=True).stdout.splitlines():
            i, h = line.split(); out[int(i)] = h
    return out

def main(forms):
    drawn = []
    for form, f, wanted in forms:
        for k in range(wanted * 4):
            for _ in range(100):
                e = f(2)
                if len(e.p) <= 60: break
            drawn.append((form, R.randrange(SETTINGS), R.choice(WIDTHS), e))
    known = run([(s, w, e) for f, s, w, e in drawn])
    left = {n: k for n, f, k in forms}; kept = []; skipped = 0; seen = set()
    for (form, s, w, e), h in zip(drawn, known):
        if any(c in "xzXZ" for c in h): skipped += 1; continue
        if left[form] == 0 or (s, w, e.p) in seen: continue
        left[form] -= 1; seen.add((s, w, e.p)); kept.append((form, s, w, e, int(h, 16)))
    print("skipped for x or z:", skipped, "kept:", len(kept), "missing:", {k: v for k, v in left.items() if v}, file=sys.stderr)
    for form, s, w, e, h in kept: print(form, "|", s, w, e.v, hex(h))
main(FORMS)
R.seed(20261127)
main(MORE)
