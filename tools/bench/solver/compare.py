#!/usr/bin/env python3
"""Runs the solver's program and the other solvers on each formula of a folder, one after the other, and prints a table.

    compare.py PROGRAM FOLDER

Times are processor seconds of one run, and so is the limit; of the solver only what `solve` takes, by the clock, is
printed beside. "Constrained" is cadical without simplifying and without forgetting, as this solver has to be. Memory is the greatest resident
set of another run, in which the log is not checked; "rest" is that less the log, by minisat's."""
import math
import pathlib
import re
import resource
import subprocess
import sys
import tempfile

LIMIT = 100
OTHERS = {
    "minisat": ["minisat", "-no-pre", "-verb=1"],
    "cadical": ["cadical", "-q", "-n"],
    "constrained": ["cadical", "-q", "-n", "--plain", "--reduce=0", "--chrono=0", "--minimize=1"],
    "picosat": ["picosat", "-n"],
}


def limited():
    """No run takes more processor seconds than the limit, however full the machine is."""
    resource.setrlimit(resource.RLIMIT_CPU, (LIMIT, LIMIT))


def run(words):
    """Processor seconds, kB and output."""
    with tempfile.NamedTemporaryFile("r") as note:
        done = subprocess.run(
            ["/usr/bin/time", "-f", "%U %S %M", "-o", note.name, *words],
            preexec_fn=limited,
            stdout=subprocess.PIPE,
            stderr=subprocess.STDOUT,
            text=True,
        )
        user, system, memory = note.read().split("\n")[-2].split()
    return float(user) + float(system), int(memory), done.stdout


def main():
    program, folder = sys.argv[1:]
    print("| formula | answer | lemmas | solve | check | minisat | ratio | cadical | constrained | picosat | MB | log MB | minisat MB | rest |")
    print("|---|---|---|---|---|---|---|---|---|---|---|---|---|---|")
    ratios = []
    for path in sorted(pathlib.Path(folder).glob("*.cnf")):
        seconds, _, text = run([program, str(path)])
        _, memory, _ = run([program, str(path), "100000000", "alone"])
        facts = dict(re.findall(r"(\w+)=(\S+)", text))
        others = {name: run([*words, str(path)]) for name, words in OTHERS.items()}
        check = float(facts.get("check", 0))
        wall = float(facts.get("s", LIMIT))
        # The program's processor time is of reading, solving and checking; the clock says how it is divided.
        own = seconds * wall / (wall + check) if wall + check > 0 else seconds
        log = (4 * int(facts.get("lits", 0)) + 4 * int(facts.get("hints", 0)) + 16 * int(facts.get("lemmas", 0))) / 1e6
        rest = (memory / 1000 - log) / (others["minisat"][1] / 1000)
        ratio = max(own, 0.005) / max(others["minisat"][0], 0.005)
        ratios.append((ratio, path.stem))
        print(
            f"| {path.stem} | {text.split()[0] if text.split() else 'none'} | {facts.get('lemmas', '')} | {own:.2f} | {seconds - own:.2f} | "
            f"{others['minisat'][0]:.2f} | {ratio:.2f} | {others['cadical'][0]:.2f} | {others['constrained'][0]:.2f} | "
            f"{others['picosat'][0]:.2f} | {memory / 1000:.0f} | {log:.0f} | {others['minisat'][1] / 1000:.0f} | {rest:.1f} |",
            flush=True,
        )
    mean = math.exp(sum(math.log(r) for r, _ in ratios) / len(ratios))
    print(f"\n{len(ratios)} formulas, geometric mean of the ratios {mean:.2f}, greatest {max(ratios)[0]:.2f} ({max(ratios)[1]})")


main()
