#!/usr/bin/env python3
"""Measures `check` of a program on the examples, on families of designs and on hostile files, beside yosys on the same obligations.

usage: run.py [--program PATH] [--only NAME] [--yosys-seconds N] [--no-yosys] [--smoke]

The status is 1 where an answer is another than it should be, or yosys gives another. README.md says what is measured, and what is printed.
"""
import argparse
import collections
import functools
import glob
import json
import math
import os
import re
import resource
import shutil
import signal
import subprocess
import sys
import tempfile

import families
from miter import miter, obligations, script

TOP = os.path.realpath(os.path.join(os.path.dirname(os.path.abspath(__file__)), "..", "..", ".."))
EXAMPLES = ("counter", "sum", "multiplier", "fifo", "uart", "registers", "copier", "processor")
TIME = "/usr/bin/time"
SECONDS = 600
ROOM = 12 << 30
# As the launcher ./wb has it.
os.environ.setdefault("GLIBC_TUNABLES", "glibc.malloc.hugetlb=1")
# the statuses of a run that its seconds ended
STOPPED = (128 + signal.SIGXCPU, 128 + signal.SIGKILL)
DOTTED = re.compile(r"[A-Za-z_]\w*(?:\.[A-Za-z_]\w*)+")

# make: gives the texts of the model, of the map and of each Verilog file. status: the one that is right. first: how the output begins, of what
# is refused. seconds, room: what the program may take. is_small: whether it is one of the smallest of its kind.
Case = collections.namedtuple("Case", "name make status first seconds room is_small")


def read(path):
    with open(path, encoding="utf8") as it:
        return it.read()


def write(path, text):
    with open(path, "w", encoding="utf8") as it:
        it.write(text)


def modules_of(text):
    return set(re.findall(r"^module\s+(\w+)", text, re.M))


def example(name, is_wrong):
    """The texts of an example; its wrong variant has the modules of `wrong.v` in place of those of the same names."""
    folder = os.path.join(TOP, "examples", name)
    designs = [read(it) for it in sorted(glob.glob(os.path.join(folder, "*.v"))) if os.path.basename(it) != "wrong.v"]
    if is_wrong:
        wrong = read(os.path.join(folder, "wrong.v"))
        designs = [it for it in designs if not modules_of(it) & modules_of(wrong)] + [wrong]
    return read(os.path.join(folder, "model.json")), read(os.path.join(folder, "map.json")), *designs


def long_counter():
    """The example of the counter with a bound of 256."""
    model, mapping, design = example("counter", False)
    changed = json.loads(mapping)
    for it in changed["instructions"]:
        it["bound"] = 256
    return model, json.dumps(changed), design


def family(form, *sizes):
    model, mapping, text = form(*sizes)
    return json.dumps(model), json.dumps(mapping), text


def cases(length):
    """All cases, in the order of the table; hostile files have so many bytes."""
    for name in EXAMPLES:
        seconds = 0.2 if name == "multiplier" else None
        yield Case(name, functools.partial(example, name, False), 0, None, seconds, None, name == "counter")
        if os.path.exists(os.path.join(TOP, "examples", name, "wrong.v")):
            yield Case(f"{name}, wrong", functools.partial(example, name, True), 1, None, None, None, name == "multiplier")
    for width in (8, 16, 32, 64):
        yield Case(f"datapath of {width} bits", functools.partial(family, families.datapath, width), 0, None, None, None, width == 8)
    for words, is_exact in (("exactly", True), ("at most", False)):
        for cycles in (4, 16, 64, 256):
            make = functools.partial(family, families.waiting, cycles, is_exact)
            yield Case(f"{words} {cycles} cycles", make, 0, None, 5 if cycles == 256 else None, None, cycles == 4)
    yield Case("counter, bound 256", long_counter, 0, None, 5, None, False)
    for count in (10, 100, 1000):
        seconds, room = (5, 1024) if count == 1000 else (None, None)
        yield Case(f"{count} registers", functools.partial(family, families.register_file, count), 0, None, seconds, room, count == 10)
    hostile = [
        ("hostile registers", functools.partial(families.many_registers, length, "map"), "refused P14 BadBound"),
        ("hostile registers, rules of models", functools.partial(families.many_registers, length, "model"), "refused M12 BadSteps"),
        ("hostile registers, rules of designs", functools.partial(families.many_registers, length, "design"), "refused V24 CombLoop"),
        ("hostile chains", functools.partial(families.long_chains, length), "refused P14 BadBound"),
        ("hostile instances", functools.partial(families.many_instances, length), "refused P14 BadBound"),
    ]
    for name, make, first in hostile:
        yield Case(name, make, 4, first, 5, None, True)


def timed(words, folder, seconds):
    """Processor seconds and MiB of a run, its exit status (above 128 where a signal ended it, as at the end of its seconds), and its output."""
    note, out = os.path.join(folder, "memory"), os.path.join(folder, "out")
    # What the system tells of a child's memory is no less than this script takes itself. The small program in between is told the child's own.
    words = [TIME, "-f", "%M", "-o", note, *words] if os.path.exists(TIME) else words

    def limited():
        resource.setrlimit(resource.RLIMIT_CPU, (seconds, seconds + 1))
        resource.setrlimit(resource.RLIMIT_AS, (ROOM, ROOM))

    with open(out, "wb") as it:
        child = subprocess.Popen(words, cwd=folder, stdout=it, stderr=subprocess.STDOUT, preexec_fn=limited)
        _, waited, used = os.wait4(child.pid, 0)
    child.returncode = os.waitstatus_to_exitcode(waited)
    status = child.returncode if child.returncode >= 0 else 128 - child.returncode
    room = int(read(note).split()[-1]) if os.path.exists(TIME) else used.ru_maxrss
    with open(out, encoding="utf8", errors="replace") as it:
        return used.ru_utime + used.ru_stime, room / 1024, status, it.read()


def in_one_module(mapping, designs, folder):
    """A map and a design without dotted names: where the map has some, yosys brings the design into one module, where they are plain names."""
    text = json.dumps(mapping)
    if not DOTTED.search(text):
        return mapping, designs
    files = [f"part{k}.v" for k in range(len(designs))]
    for name, design in zip(files, designs):
        write(os.path.join(folder, name), design)
    words = f"read_verilog {' '.join(files)}; hierarchy -top {mapping['top']}; proc; flatten; write_verilog -noattr whole.v"
    subprocess.run(["yosys", "-q", "-p", words], cwd=folder, check=True)
    return json.loads(DOTTED.sub(lambda it: f"\\\\{it[0]} ", text)), [read(os.path.join(folder, "whole.v"))]


def beside(model, mapping, designs, folder, limit, start):
    """What yosys takes for the obligations, started once: its processor seconds, and its answers up to the first error or to the limit."""
    mapping, designs = in_one_module(mapping, designs, folder)
    used, answers = start, {}
    for name, _ in obligations(model, mapping):
        text, steps = miter(model, mapping, designs, name)
        write(os.path.join(folder, "miter.v"), text)
        left = math.ceil(max(limit - used, 0)) + 1
        took, _, status, said = timed(["yosys", "-q", "-p", script("miter.v", mapping["top"], steps)], folder, left)
        used += max(took - start, 0)
        if status in STOPPED or used > limit:
            break
        answers[name] = "proved" if status == 0 else "failed" if "proof did fail" in said else f"error: {said.strip()[-200:]}"
        if answers[name].startswith("error"):
            break
    return used, answers


def unlike(names, text, answers):
    """Where the lines of a report are not those of the obligations, or yosys says something else."""
    found = [line.split()[:2] for line in text.splitlines()[: len(names)]]
    if [it[0] for it in found if len(it) == 2] != names:
        return ["the lines are not those of the obligations"]
    return [f"{name}: {said}, yosys {answers[name]}" for name, said in found if name in answers and said not in (answers[name], "unknown")]


def measured(case, program, limit, start):
    """Runs a case: its line of the table, its ratio if there is one, whether yosys came to the end, what is not as it should be, what is over."""
    with tempfile.TemporaryDirectory() as folder:
        model, mapping, *designs = case.make()
        files = ["model.json", "map.json", *[f"design{k}.v" for k in range(len(designs))]]
        for name, text in zip(files, (model, mapping, *designs)):
            write(os.path.join(folder, name), text)
        ours, room, status, text = timed([program, "check", "--model", files[0], "--map", files[1], *files[2:]], folder, SECONDS)
        is_right = status == case.status and text.startswith(case.first or "")
        first = text.split("\n", 1)[0][:60]
        wrong = [] if is_right else [f"status {status}, `{first}`"]
        count, theirs, ratio, is_whole = "", "", "", True
        if case.first is None:
            model, mapping = json.loads(model), json.loads(mapping)
            names = [name for name, _ in obligations(model, mapping)]
            count, used, answers = len(names), 0, {}
            if limit:
                used, answers = beside(model, mapping, designs, folder, limit, start)
                is_whole = len(answers) == len(names)
                theirs = f"{'' if is_whole else '> '}{used:.3f}"
            if is_right:
                wrong += unlike(names, text, answers)
            if limit and not wrong:
                ratio = ours / used
    over = [f"{ours:.3f} s, over {case.seconds} s"] if case.seconds and ours > case.seconds else []
    over += [f"{room:.0f} MiB, over {case.room} MiB"] if case.room and room > case.room else []
    shown = "" if ratio == "" else f"{'' if is_whole else '< '}{ratio:.3f}"
    return f"| {case.name} | {count} | {ours:.3f} | {room:.0f} | {theirs} | {shown} |", ratio, is_whole, wrong, over


def options():
    parser = argparse.ArgumentParser(description="Measures `check` of a program, beside yosys on the same obligations.")
    parser.add_argument("--program", default=os.path.join(TOP, "release", "wb"), metavar="PATH", help="the program (release/wb)")
    parser.add_argument("--only", default="", metavar="NAME", help="the cases whose name has this in it")
    parser.add_argument("--yosys-seconds", type=int, default=60, metavar="N", help="processor seconds of yosys for each case (60)")
    parser.add_argument("--no-yosys", action="store_true", help="the program alone")
    parser.add_argument("--smoke", action="store_true", help="the smallest of each kind, and short hostile files: whether all of it runs")
    return parser.parse_args()


def main():
    asked = options()
    program = os.path.abspath(asked.program)
    if not os.access(program, os.X_OK):
        sys.exit(f"there is no program {program}")
    limit, start = 0 if asked.no_yosys else asked.yosys_seconds, 0
    if limit and not shutil.which("yosys"):
        limit = 0
        print("yosys is not there: the program is measured alone\n")
    if limit:
        with tempfile.TemporaryDirectory() as folder:
            start = sorted(timed(["yosys", "-q", "-p", "log"], folder, SECONDS)[0] for _ in range(5))[2]
        print(f"yosys starts in {start:.3f} s\n")
    ratios, remarks = [], []
    print("| case | obligations | our s | our MiB | yosys s | ratio |\n|---|---|---|---|---|---|", flush=True)
    for case in cases(1 << 16 if asked.smoke else families.LENGTH):
        if asked.only in case.name and (case.is_small or not asked.smoke):
            line, ratio, is_whole, wrong, over = measured(case, program, limit, start)
            print(line, flush=True)
            ratios += [] if ratio == "" else [(ratio, is_whole, case.name)]
            remarks += [("not as it should be", case.name, it) for it in wrong] + [("over the bound", case.name, it) for it in over]
    print()
    if ratios:
        mean, (most, _, name) = math.exp(sum(math.log(it[0]) for it in ratios) / len(ratios)), max(ratios)
        cut = sum(not it[1] for it in ratios)
        print(f"geometric mean of {len(ratios)} ratios {mean:.3f} (bound 1.0), largest {most:.3f}: {name} (bound 5)")
        if cut:
            print(f"yosys was stopped on {cut} cases; with its full time their ratios, and so the mean, would be smaller")
    for head, name, it in sorted(remarks):
        print(f"{head}: {name}: {it}")
    return int(any(it[0] == "not as it should be" for it in remarks))


if __name__ == "__main__":
    sys.exit(main())
