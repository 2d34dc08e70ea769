#!/usr/bin/env python3
"""Measures `replay` of a built program on hostile trace files of 4 MiB: processor time and memory of each, and what is answered.

usage: run.py [PROGRAM] [WORD]      PROGRAM: crates/wb_main/out/wb_main; WORD: the cases whose name has it alone

The status is 1 where an answer is not the one that docs/FORMATS.md gives, or takes more than a second of processor time, user and system.
The model, the map and the Verilog are those of the counter, but for the last cases, which are about long runs and many obligations.
"""
import collections
import json
import os
import subprocess
import sys
import tempfile

HERE = os.path.dirname(os.path.abspath(__file__))
TOP = os.path.join(HERE, "../../..")
COUNTER = os.path.join(TOP, "examples/counter")
LIMIT = 4_194_304
SECONDS = 1.0
NAME = "commit.INC.0.state.cnt"
HOLDS = f"{NAME} holds"
JSON, SHAPE, OBLIGATION, VALUE = ("refused T1 BadJson", "refused T2 BadShape", "refused T3 UnknownObligation", "refused T4 MissingValue")
CYCLE = '{"go":"0x1","op":"0x1","rst":"0x0"}'
STATUSES = {"refused": 4, "limit": 8, "falsifies": 1, "hypothesis": 0, "holds": 0}

# files: the texts of the model, the map and the Verilog, by their names. trace: the bytes of the trace. first: the line that is right.
Case = collections.namedtuple("Case", "name files trace first")


def read(path):
    with open(path, encoding="utf8") as it:
        return it.read()


def counter():
    return {"m": read(os.path.join(COUNTER, "model.json")), "p": read(os.path.join(COUNTER, "map.json")), "v": read(os.path.join(COUNTER, "counter.v"))}


def trace(registers='{"cnt":"0x0"}', inputs=f"[{CYCLE}]", obligation=NAME, more=""):
    return f'{{{more}"inputs":{inputs},"obligation":"{obligation}","registers":{registers}}}'


def filled(head, unit, tail):
    """As many units as fit between a head and a tail."""
    return head + unit * ((LIMIT - len(head) - len(tail)) // len(unit)) + tail


def within(whole, unit, mark="@"):
    """A text of which a mark stands for as many units as fit."""
    return filled(*(whole.split(mark)[0], unit, whole.split(mark)[1]))


def numbered(whole, unit, mark="@"):
    """A text of which a mark stands for as many units as fit, each with its own number in the place of `#`."""
    head, tail = whole.split(mark)
    parts, room, k = [], LIMIT - len(head) - len(tail), 0
    while True:
        part = unit.replace("#", f"{k:x}")
        if len(part) > room:
            return head + "".join(parts) + tail
        parts.append(part)
        room, k = room - len(part), k + 1


def hostile():
    """The name of each case on the counter, its trace, and the line that is right."""
    yield "opening brackets", "[" * LIMIT, JSON
    yield "opening braces", filled("", '{"a":', ""), JSON
    yield "closing brackets after a trace", within(trace() + "@", "]"), JSON
    yield "lists nested 120 deep", within(trace(inputs=f"[@{CYCLE}]"), "[" * 120 + "]" * 120 + ","), SHAPE
    yield "objects nested 120 deep", within(trace(registers='{"cnt":@"0x0"}'), '{"a":' * 120 + "0" + "}" * 120 + ',"b":'), SHAPE
    yield "one object of objects nested 120 deep", within(trace(registers='{@"cnt":"0x0"}'), '"a":' + '{"a":' * 119 + "0" + "}" * 119 + ","), SHAPE
    yield "a text without end", filled('{"obligation":"', "a", ""), JSON
    yield "bytes of no text", b"\xff" * LIMIT, JSON
    yield "one long name of an obligation", within(trace(obligation="@"), "a"), OBLIGATION
    yield "one long name, all of it escapes", within(trace(obligation="@"), "\\u0061"), OBLIGATION
    yield "one long name of a register", within(trace(registers='{"@":"0x0","cnt":"0x0"}'), "a"), SHAPE
    yield "one long value", within(trace(registers='{"cnt":"0x@"}'), "f"), SHAPE
    yield "one long value of zeros", within(trace(registers='{"cnt":"0x@0"}'), "0"), SHAPE
    yield "one long list as the value", within(trace(registers='{"cnt":[@"0x0"]}'), '"0x0",'), SHAPE
    yield "registers that are none", numbered(trace(registers='{@"cnt":"0x0"}'), '"r#":"0x0",'), SHAPE
    yield "registers that are none, as many as fit", numbered(trace(registers='{@"cnt":"0x0"}'), '"#":0,'), SHAPE
    yield "inputs that are none", numbered(trace(inputs='[{@"go":"0x1","op":"0x1","rst":"0x0"}]'), '"r#":"0x0",'), SHAPE
    yield "keys that are none", numbered(trace(more="@"), '"r#":0,'), SHAPE
    yield "a register given over and over", within(trace(registers='{@"cnt":"0x0"}'), '"cnt":"0x0",'), HOLDS
    yield "a register given over and over, wrongly but for the last", within(trace(registers='{@"cnt":"0x0"}'), '"cnt":[],'), HOLDS
    yield "a register given over and over, the last wrongly", within(trace(registers='{@"cnt":"0x100"}'), '"cnt":"0x0",'), SHAPE
    yield "an input given over and over", within(trace(inputs='[{@"go":"0x1","op":"0x1","rst":"0x0"}]'), '"go":"0x0",'), HOLDS
    yield "a key given over and over", within(trace(more="@"), f'"inputs":[{CYCLE}],'), HOLDS
    yield "a name given over and over", within(trace(more="@"), '"obligation":"a",'), HOLDS
    yield "cycles", within(trace(inputs=f"[@{CYCLE}]"), CYCLE + ","), VALUE
    yield "a million cycles without inputs", within(trace(inputs="[@{}]"), "{},"), VALUE
    yield "blanks", within(trace() + "@", " "), HOLDS
    yield "a byte too many", trace().ljust(LIMIT + 1), "limit length 2"


def long_runs():
    """The counter with commands of 256 cycles, none of which commits; and a trace of all of them."""
    files = counter()
    given = json.loads(files["p"])
    given["instructions"] = [{"name": it["name"], "commit": "1'b0", "bound": 256} for it in given["instructions"]]
    later = '{"go":"0x0","op":"0x0","rst":"0x0"}'
    yield Case("256 cycles of the counter", {**files, "p": json.dumps(given)}, trace(inputs=f"[{','.join([CYCLE] + [later] * 255)}]", obligation="bound.INC"), "bound.INC falsifies")


def many_obligations(states=100, instructions=20):
    """A block of registers that keep what they have. Each instruction has a bound of 256 and an obligation for each cycle and state."""
    model = {"name": "m", "states": [{"name": f"s{k}", "sort": 8, "init": 0} for k in range(states)], "inputs": [{"name": "op", "sort": 8}], "valid": True,
             "instructions": [{"name": f"I{k}", "decode": ["eq", "op", ["const", 8, k]], "update": {}} for k in range(instructions)]}
    given = {"version": 1, "top": "t", "clock": "clk", "reset": {"signal": "rst", "active": 1, "cycles": 1}, "assume": [], "invariants": [], "start": "go",
             "states": {f"s{k}": f"s{k}" for k in range(states)}, "inputs": {"op": "op"},
             "instructions": [{"name": f"I{k}", "commit": "1", "bound": 256} for k in range(instructions)]}
    lines = ["module t(input clk, input rst, input go, input [7:0] op);", *(f"  reg [7:0] s{k}; always @(posedge clk) if (rst) s{k} <= 0;" for k in range(states)), "endmodule\n"]
    name = f"commit.I{instructions - 1}.0.state.s{states - 1}"
    registers = json.dumps({f"s{k}": hex(k) for k in range(states)})
    yield Case(f"one of {states * instructions * 256} obligations", {"m": json.dumps(model), "p": json.dumps(given), "v": "\n".join(lines)},
               trace(registers=registers, inputs=f'[{{"go":"0x1","op":"{hex(instructions - 1)}","rst":"0x0"}}]', obligation=name), f"{name} holds")


def cases():
    files = counter()
    for name, text, first in hostile():
        yield Case(name, files, text, first)
    yield from long_runs()
    yield from many_obligations()


def measured(program, case, room):
    """Processor seconds, memory in MiB, the status and the first line of a replay."""
    for name, text in {**case.files, "x": case.trace}.items():
        with open(os.path.join(room, name), "wb") as it:
            it.write(text if isinstance(text, bytes) else text.encode())
    with open(os.path.join(room, "out"), "wb") as out:
        child = subprocess.Popen([program, "replay", "--model", "m", "--map", "p", "--trace", "x", "v"], cwd=room, stdout=out, stderr=subprocess.STDOUT)
        _, status, used = os.wait4(child.pid, 0)
    with open(os.path.join(room, "out"), "rb") as it:
        first = it.read(200).split(b"\n")[0].decode(errors="replace")
    return used.ru_utime + used.ru_stime, used.ru_maxrss // 1024, os.waitstatus_to_exitcode(status), first


def main():
    program = os.path.abspath(sys.argv[1] if len(sys.argv) > 1 else os.path.join(TOP, "crates/wb_main/out/wb_main"))
    word = sys.argv[2] if len(sys.argv) > 2 else ""
    bad = 0
    with tempfile.TemporaryDirectory() as room:
        for case in cases():
            if word not in case.name:
                continue
            seconds, memory, status, first = measured(program, case, room)
            wanted = next(number for it, number in STATUSES.items() if it in case.first.split())
            wrong = [] if (first, status) == (case.first, wanted) else [f"WRONG, `{case.first}` and {wanted} are right"]
            wrong += ["OVER THE BOUND"] if seconds > SECONDS else []
            bad += bool(wrong)
            print("; ".join([f"{case.name}: {seconds:.2f} s, {memory} MiB, status {status}, `{first}` (bound {SECONDS} s)", *wrong]), flush=True)
    print(f"{bad} cases are wrong or over the bound")
    return int(bad > 0)


if __name__ == "__main__":
    sys.exit(main())
