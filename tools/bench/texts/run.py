#!/usr/bin/env python3
"""Measures how a built program reads Verilog files that are made to hurt: time and memory of each, beside its bound.

usage: run.py [PROGRAM] [WORD]      PROGRAM: the built workbench, default crates/wb_main/out/wb_main; WORD: the forms whose name has it alone

`check` reads each file as tokens and a tree before it asks whether the design has its top, and none of these has one, so its time is that of
reading. The counter's model and map stand beside the file. Time is processor time, of which a machine full of other work takes some more.
The bound of time is 2 s on a machine on which yosys (Debian's) reads the ordinary file in 8 s, and longer by as much as yosys takes longer
here. For the ordinary file it is a tenth of the time of yosys, if that is less; without yosys that row is left out. A form that passes a
bound is marked OVER, and then the status is 1.
"""
import json
import os
import resource
import shutil
import subprocess
import sys
import tempfile

HERE = os.path.dirname(os.path.abspath(__file__))
TOP = os.path.join(HERE, "../../..")
MACHINE = os.path.join(HERE, "../machine.py")
# As the launcher ./wb has it.
os.environ.setdefault("GLIBC_TUNABLES", "glibc.malloc.hugetlb=1")
BUILT = os.path.join(TOP, "crates/wb_main/out/wb_main")
COUNTER = os.path.join(TOP, "examples/counter")
BOUND_SECONDS, BOUND_MEMORY = 2.0, 700
SECONDS, ROOM = 60, 6 << 30


def limited():
    resource.setrlimit(resource.RLIMIT_CPU, (SECONDS, SECONDS))
    resource.setrlimit(resource.RLIMIT_AS, (ROOM, ROOM))


def written(room, wanted):
    """Writes the forms, in a process of its own, since a process that is started counts the memory of the one that starts it as its own."""
    writer = os.fork()
    if writer == 0:
        from forms import forms

        titles = []
        for title, text in forms():
            if wanted in title:
                with open(os.path.join(room, f"t{len(titles)}.v"), "w", encoding="utf8") as it:
                    it.write(text)
                titles.append(title)
        with open(os.path.join(room, "titles"), "w", encoding="utf8") as it:
            json.dump(titles, it)
        os._exit(0)
    os.waitpid(writer, 0)
    with open(os.path.join(room, "titles"), encoding="utf8") as it:
        return json.load(it)


def measured(words, room):
    """Seconds of processor time, MiB, the exit status (below 0: a signal), and the first line that was written."""
    with open(os.path.join(room, "out"), "wb") as out:
        child = subprocess.Popen(words, cwd=room, stdout=out, stderr=subprocess.STDOUT, preexec_fn=limited)
        _, status, used = os.wait4(child.pid, 0)
        child.returncode = status
    with open(os.path.join(room, "out"), "rb") as it:
        first = it.read(200).split(b"\n")[0].decode()
    return used.ru_utime + used.ru_stime, used.ru_maxrss // 1024, os.waitstatus_to_exitcode(status), first


def main():
    program = os.path.abspath(sys.argv[1]) if len(sys.argv) > 1 else BUILT
    wanted = sys.argv[2] if len(sys.argv) > 2 else ""
    told = subprocess.run([sys.executable, MACHINE], capture_output=True, text=True, check=True).stdout.strip()
    slowness, told = told.split(" ", 1)
    print(told, flush=True)
    over = count = 0
    with tempfile.TemporaryDirectory() as room:
        for name in ("model.json", "map.json"):
            shutil.copy(os.path.join(COUNTER, name), room)
        for place, title in enumerate(written(room, wanted)):
            text = f"t{place}.v"
            bound = BOUND_SECONDS * float(slowness)
            if "ordinary" in title and shutil.which("yosys"):
                seconds, memory, status, _ = measured(["yosys", "-q", "-p", f"read_verilog {text}"], room)
                bound = min(bound, seconds / 10)
                print(f"{title}, yosys: {seconds:.2f} s, {memory} MiB, status {status}", flush=True)
            seconds, memory, status, first = measured([program, "check", "--model", "model.json", "--map", "map.json", text], room)
            is_over = seconds > bound or memory > BOUND_MEMORY or status < 0
            print(f"{title}: {seconds:.2f} s, {memory} MiB, status {status}, `{first}` (bound {bound:.2f} s, {BOUND_MEMORY} MiB){' OVER' if is_over else ''}", flush=True)
            count, over = count + 1, over + is_over
    print(f"{count} forms, {over} over their bounds")
    return int(over > 0)


if __name__ == "__main__":
    sys.exit(main())
