#!/usr/bin/env python3
"""Measures `simulate` of a built program on model files and scripts that are made to hurt: time and memory of each, beside its bound.

usage: run.py [PROGRAM] [WORD]      PROGRAM: the built workbench, default crates/wb_main/out/wb_main; WORD: the forms whose name has it alone

Time is processor time, of which a machine full of other work takes some more. Bounds of time are those of a machine on which yosys
(Debian's) reads the ordinary file of ../texts in 8 s, and longer by as much as yosys takes longer here. A form that passes a bound is
marked OVER. A run ends after a minute of processor time. It gets at most 4 GiB: what asks for more has to answer by itself that it is out of memory (status 7). The status is 1 where a form passes its bound, or ends by a signal of its own.
"""
import json
import os
import resource
import subprocess
import sys
import tempfile

HERE = os.path.dirname(os.path.abspath(__file__))
BUILT = os.path.join(HERE, "../../../crates/wb_main/out/wb_main")
MACHINE = os.path.join(HERE, "../machine.py")
SECONDS = 60
ROOM = 4 << 30
# As the launcher ./wb has it.
os.environ.setdefault("GLIBC_TUNABLES", "glibc.malloc.hugetlb=1")


def limited():
    resource.setrlimit(resource.RLIMIT_CPU, (SECONDS, SECONDS))
    resource.setrlimit(resource.RLIMIT_AS, (ROOM, ROOM))


def written(room, wanted):
    """Writes the forms, in a process of its own, since a process that is started counts the memory of the one that starts it as its own."""
    writer = os.fork()
    if writer == 0:
        from forms import rows

        told = []
        for name, model_text, script_text, *bound in rows():
            if wanted in name:
                for letter, text in (("m", model_text), ("s", script_text)):
                    with open(os.path.join(room, f"{letter}{len(told)}"), "w", encoding="utf8") as it:
                        it.write(text)
                told.append((name, *bound))
        with open(os.path.join(room, "told"), "w", encoding="utf8") as it:
            json.dump(told, it)
        os._exit(0)
    os.waitpid(writer, 0)
    with open(os.path.join(room, "told"), encoding="utf8") as it:
        return json.load(it)


def measured(program, place, room):
    """Seconds of processor time, MiB, the exit status (below 0: a signal), and the end of what was written."""
    with open(os.path.join(room, "out"), "wb") as out:
        words = [program, "simulate", "--model", f"m{place}", "--script", f"s{place}"]
        child = subprocess.Popen(words, cwd=room, stdout=out, preexec_fn=limited)
        _, status, used = os.wait4(child.pid, 0)
        child.returncode = status
    with open(os.path.join(room, "out"), "rb") as it:
        it.seek(max(0, os.path.getsize(it.name) - 200))
        last = it.read().rstrip(b"\n").split(b"\n")[-1][-40:].decode()
    return used.ru_utime + used.ru_stime, used.ru_maxrss // 1024, os.waitstatus_to_exitcode(status), last


def main():
    program = os.path.abspath(sys.argv[1]) if len(sys.argv) > 1 else BUILT
    wanted = sys.argv[2] if len(sys.argv) > 2 else ""
    told = subprocess.run([sys.executable, MACHINE], capture_output=True, text=True, check=True).stdout.strip()
    slowness, told = told.split(" ", 1)
    print(told, flush=True)
    over = count = 0
    with tempfile.TemporaryDirectory() as room:
        for place, (name, seconds, memory) in enumerate(written(room, wanted)):
            seconds *= float(slowness)
            took, used, status, last = measured(program, place, room)
            is_over = took > seconds or used > memory or status < 0
            ended = f"status {status}, `{last}`" if status >= 0 else f"ended after {SECONDS} s"
            print(f"{name}: {took:.2f} s, {used} MiB, {ended} (bound {seconds:.1f} s, {memory} MiB){' OVER' if is_over else ''}", flush=True)
            count, over = count + 1, over + is_over
    print(f"{count} forms, {over} over their bounds")
    return int(over > 0)


if __name__ == "__main__":
    sys.exit(main())
