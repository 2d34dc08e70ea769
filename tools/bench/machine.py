"""How fast this machine is, by the time that yosys takes to read ordinary Verilog here."""
import os
import resource
import shutil
import subprocess
import sys
import tempfile

HERE = os.path.dirname(os.path.abspath(__file__))
USUAL = 8.0  # seconds that yosys (Debian's) takes for the ordinary file on the machine for which bounds are stated


def ordinary_seconds():
    """Processor seconds in which yosys reads the ordinary file of texts/forms.py, or none without yosys."""
    if not shutil.which("yosys"):
        return None
    sys.path.insert(0, os.path.join(HERE, "texts"))
    from forms import ordinary

    sys.path.pop(0)
    sys.modules.pop("forms")
    with tempfile.TemporaryDirectory() as room:
        path = os.path.join(room, "t.v")
        with open(path, "w", encoding="utf8") as it:
            it.write(ordinary()[0])
        before = resource.getrusage(resource.RUSAGE_CHILDREN)
        subprocess.run(["yosys", "-q", "-p", f"read_verilog {path}"], check=True, stdout=subprocess.DEVNULL)
        after = resource.getrusage(resource.RUSAGE_CHILDREN)
    return after.ru_utime + after.ru_stime - before.ru_utime - before.ru_stime


def slowness():
    """By how much this machine is slower than that one, at least 1, and a line that says so. Run it in a process of its own where memory is measured."""
    seconds = ordinary_seconds()
    if seconds is None:
        return 1.0, "no yosys here: bounds as they are stated"
    factor = max(1.0, seconds / USUAL)
    return factor, f"yosys reads the ordinary file in {seconds:.1f} s: bounds of time are {factor:.2f} times those of a machine on which it takes {USUAL:g} s"


if __name__ == "__main__":
    print(*slowness())
