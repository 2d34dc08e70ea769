#!/usr/bin/env python3
"""Measures `simulate-both` of a built program beside `simulate-rtl` on the same script of 4 MiB: processor time and memory of each, and their ratio.

usage: run.py [PROGRAM]      PROGRAM: crates/wb_main/out/wb_main

The status is 1 where an answer is not the one that docs/FORMATS.md gives, or `simulate-both` takes more than 1.5 times as long.
The model, the map and the Verilog are those of the counter.
"""
import os
import random
import subprocess
import sys
import tempfile

HERE = os.path.dirname(os.path.abspath(__file__))
TOP = os.path.join(HERE, "../../..")
COUNTER = os.path.join(TOP, "examples/counter")
LIMIT = 4_194_304
RATIO = 1.5
RUNS = 15
RESET = "in rst=1 go=0 op=0\n"


def filled(lines):
    """As many of the lines as fit after the reset."""
    parts, room = [RESET], LIMIT - len(RESET)
    for line in lines:
        if len(line) > room:
            return "".join(parts)
        parts.append(line)
        room -= len(line)


def drawn():
    draw = random.Random(1)
    while True:
        yield f"in rst=0 go={draw.randrange(2)} op={draw.randrange(2)}\n"


def every(line):
    while True:
        yield line


def agreeing(script):
    """The line for the counter: each `go` is a command that ends in its cycle."""
    return f"agrees {script.count('go=1')}"


def cases():
    """The name of each case, its script, and the line that is right."""
    for name, lines in [("commands and idle cycles as drawn", drawn()), ("commands alone", every("in rst=0 go=1 op=1\n")), ("idle cycles alone", every("in rst=0 go=0 op=1\n"))]:
        script = filled(lines)
        yield name, script, agreeing(script)


def measured(words, room):
    """Processor seconds, memory in MiB, and the first line."""
    with open(os.path.join(room, "out"), "wb") as out:
        child = subprocess.Popen(words, cwd=room, stdout=out, stderr=subprocess.STDOUT)
        _, _, used = os.wait4(child.pid, 0)
    with open(os.path.join(room, "out"), "rb") as it:
        return used.ru_utime + used.ru_stime, used.ru_maxrss // 1024, it.readline(200).decode(errors="replace").strip()


def in_turn(first, second, room):
    """The least of what some runs of each of two commands take, run in turn."""
    runs = [(measured(first, room), measured(second, room)) for _ in range(RUNS)]
    return min(it for it, _ in runs), min(it for _, it in runs)


def main():
    program = os.path.abspath(sys.argv[1] if len(sys.argv) > 1 else os.path.join(TOP, "crates/wb_main/out/wb_main"))
    bad = 0
    with tempfile.TemporaryDirectory() as room:
        for name in ("model.json", "map.json", "counter.v"):
            with open(os.path.join(COUNTER, name), "rb") as it, open(os.path.join(room, name), "wb") as out:
                out.write(it.read())
        for name, script, line in cases():
            with open(os.path.join(room, "script"), "w", encoding="utf8") as out:
                out.write(script)
            alone, both = in_turn(
                [program, "simulate-rtl", "--top", "counter", "--clock", "clk", "--script", "script", "counter.v"],
                [program, "simulate-both", "--model", "model.json", "--map", "map.json", "--script", "script", "counter.v"],
                room,
            )
            ratio = both[0] / alone[0]
            wrong = [] if both[2] == line else [f"WRONG, `{line}` is right"]
            wrong += ["OVER THE BOUND"] if ratio > RATIO else []
            bad += bool(wrong)
            told = f"{name}: simulate-rtl {alone[0]:.2f} s, {alone[1]} MiB; simulate-both {both[0]:.2f} s, {both[1]} MiB, `{both[2]}`; ratio {ratio:.2f} (bound {RATIO})"
            print("; ".join([told, *wrong]), flush=True)
    print(f"{bad} cases are wrong or over the bound")
    return int(bad > 0)


if __name__ == "__main__":
    sys.exit(main())
