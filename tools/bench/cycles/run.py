#!/usr/bin/env python3
"""Runs `simulate-rtl` of a built program on many cycles of a design, beside Icarus Verilog on the same, and prints the times.

usage: ./run.py [PROGRAM] [CYCLES]      PROGRAM: crates/wb_main/out/wb_main, CYCLES: 20000

The design is a datapath of 40 stages of 32 bits. Each side prints the outputs of each cycle; the two texts are compared. Compiling the
test bench by `iverilog` is told apart from running it by `vvp`. It wants Debian's `iverilog`.
"""
import importlib.machinery
import importlib.util
import os
import random
import subprocess
import sys
import tempfile
import time

TOP = os.path.realpath(os.path.join(os.path.dirname(os.path.abspath(__file__)), "..", "..", ".."))
STAGES = 40
FORMS = ("(p + {c})", "(p ^ {c})", "(p - {{p[15:0], p[31:16]}})", "(p << 3) + b", "{{p[0], p[31:1]}} ^ (p & {c})", "p[7] ? p + b : ~p", "p * {c}", "p + (b >>> 2)")


def library():
    loader = importlib.machinery.SourceFileLoader("designs", os.path.join(TOP, "tools", "vectors", "designs"))
    module = importlib.util.module_from_spec(importlib.util.spec_from_loader("designs", loader))
    loader.exec_module(module)
    return module


def design_text(draw):
    lines = ["module t(input clk, input [31:0] a, input [31:0] b, output [31:0] q);"]
    for k in range(STAGES):
        before = f"s{k - 1}" if k else "a"
        form = FORMS[k % len(FORMS)].format(c=f"32'd{draw.randrange(1 << 32)}").replace("p", before)
        lines += [f"  reg [31:0] s{k};", f"  always @(posedge clk) s{k} <= {form};"]
    return "\n".join([*lines, f"  assign q = s{STAGES - 1};", "endmodule", ""])


def timed(words):
    start = time.monotonic()
    ran = subprocess.run(words, capture_output=True, text=True, check=False)
    return time.monotonic() - start, ran.stdout


def main(words):
    program = words[0] if words else os.path.join(TOP, "crates", "wb_main", "out", "wb_main")
    cycles = int(words[1]) if len(words) > 1 else 20000
    designs, draw = library(), random.Random(7)
    with tempfile.TemporaryDirectory() as folder:
        source, script, bench, made = (os.path.join(folder, it) for it in ("t.v", "s", "bench.v", "bench"))
        text = design_text(draw)
        stimuli = "".join(f"in a={draw.randrange(1 << 32)} b={draw.randrange(1 << 32)}\n" for _ in range(cycles))
        for path, content in ((source, text), (script, stimuli), (bench, designs.bench_of(designs.Design(text), stimuli))):
            with open(path, "w", encoding="utf8") as file:
                file.write(content)
        ours, found = timed([program, "simulate-rtl", "--top", "t", "--clock", "clk", "--script", script, source])
        compiled, _ = timed(["iverilog", "-g2005", "-o", made, bench, source])
        theirs, wanted = timed(["vvp", "-n", made])
    alike = "alike" if found == wanted else "DIFFERENT"
    print(f"{cycles} cycles: {ours:.2f} s; iverilog {compiled:.2f} s and vvp {theirs:.2f} s; {ours / theirs:.2f} of vvp, {ours / (compiled + theirs):.2f} of both; {alike}")
    return 0 if found == wanted else 1


if __name__ == "__main__":
    sys.exit(main(sys.argv[1:]))
