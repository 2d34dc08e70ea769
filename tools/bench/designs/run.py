#!/usr/bin/env python3
"""Runs `simulate-rtl` of a built program on large designs, and on many cycles beside Icarus Verilog, and prints times and memory.

usage: ./run.py [PROGRAM] [WORD]      PROGRAM: crates/wb_main/out/wb_main; WORD: the forms whose name has it alone

The first forms run 20,000 cycles; each side prints the outputs of each cycle, the two texts are compared, and the time is set beside that
of `vvp`. It wants Debian's `iverilog`. The others are large texts with two cycles, of which processor time (user and system) counts, and
wall time is told beside it. With them stand the same texts refused: by `NoTop`, which reads them and no more, and by `CombLoop`, which is
the last kind, so that all rules are asked and no design is made.
"""
import importlib.machinery
import importlib.util
import os
import random
import resource
import subprocess
import sys
import tempfile
import time

TOP = os.path.realpath(os.path.join(os.path.dirname(os.path.abspath(__file__)), "..", "..", ".."))
# As the launcher ./wb has it.
os.environ.setdefault("GLIBC_TUNABLES", "glibc.malloc.hugetlb=1")
CYCLES = 20000
STAGES = 40
STEPS = ("(p + {c})", "(p ^ {c})", "(p - {{p[15:0], p[31:16]}})", "(p << 3) + b", "{{p[0], p[31:1]}} ^ (p & {c})", "p[7] ? p + b : ~p", "p * {c}", "p + (b >>> 2)")
MEMORY = 800
LIMIT = 120


def library():
    """What turns a script into a test bench (tools/vectors/designs)."""
    loader = importlib.machinery.SourceFileLoader("designs", os.path.join(TOP, "tools", "vectors", "designs"))
    module = importlib.util.module_from_spec(importlib.util.spec_from_loader("designs", loader))
    loader.exec_module(module)
    return module


def lines(*parts):
    return "\n".join(parts) + "\n"


def datapath(draw):
    """Stages of 32 bits, each a register that is made from the one before."""
    parts = ["module t(input clk, input [31:0] a, input [31:0] b, output [31:0] q);"]
    for k in range(STAGES):
        form = STEPS[k % len(STEPS)].format(c=f"32'd{draw.randrange(1 << 32)}").replace("p", f"s{k - 1}" if k else "a")
        parts += [f"  reg [31:0] s{k};", f"  always @(posedge clk) s{k} <= {form};"]
    return lines(*parts, f"  assign q = s{STAGES - 1};", "endmodule")


def instances(draw):
    """2,000 instances of a small block in a row."""
    count = 2000
    parts = [
        "module block #(parameter C = 1)(input clk, input [7:0] p, input [7:0] b, output [7:0] n);",
        "  reg [7:0] s; wire [7:0] x = p ^ {b[3:0], b[7:4]};",
        "  always @(posedge clk) s <= x + C;",
        "  assign n = s;",
        "endmodule",
        "module t(input clk, input [7:0] a, input [7:0] b, output [7:0] q);",
    ]
    for k in range(count):
        before = f"w{k - 1}" if k else "a"
        parts += [f"  wire [7:0] w{k};", f"  block #(8'd{draw.randrange(256)}) u{k}(clk, {before}, b, w{k});"]
    return lines(*parts, f"  assign q = w{count - 1};", "endmodule")


def memory(draw):
    """A memory that is read and written in each cycle."""
    return lines(
        "module t(input clk, input [15:0] a, input [31:0] b, output [31:0] q);",
        "  reg [31:0] m [0:65535]; reg [31:0] s;",
        f"  assign q = s + 32'd{draw.randrange(1 << 32)};",
        "  always @(posedge clk) begin s <= m[a ^ b[15:0]]; m[a] <= b + s; end",
        "endmodule",
    )


def ordinary_modules():
    """4 MiB of ordinary modules, and a top with an instance of each."""
    parts, size, k = [], 0, 0
    while size < 4100000:
        text = lines(
            f"module block{k} #(parameter W = 8, parameter [7:0] C = {k % 256})(",
            "  input clk, input rst, input enable, input [W-1:0] data, output reg [W-1:0] result, output flag",
            ");",
            "  wire [W-1:0] next = enable ? (data ^ C) + {{(W-1){1'b0}}, data[0]} : result;",
            "  reg [1:0] state;",
            "  assign flag = state == 2'd3;",
            "  always @(posedge clk)",
            "    if (rst) begin result <= 0; state <= 0; end",
            "    else case (state)",
            "      2'd0: begin result <= next; state <= 2'd1; end",
            "      2'd1: begin result <= next + 1; state <= 2'd2; end",
            "      default: state <= state + 1;",
            "    endcase",
            "endmodule",
        )
        top = f"  block{k} u{k}(clk, rst, a[0], a, q{k}, f[{k % 8}]);\n"
        if size + len(text) + 60 > 4100000:
            break
        parts.append(text)
        size += len(text) + 70
        k += 1
    wires = [f"  wire [7:0] q{i}; wire f{i}; block{i} u{i}(clk, rst, a[0], a, q{i}, f{i});" for i in range(k)]
    return "".join(parts) + lines("module t(input clk, input rst, input [7:0] a, output [7:0] q);", *wires, f"  assign q = q{k - 1};", "endmodule")


def chain():
    """A chain of instances, each in the one before, 65,536 deep: by parameters, from few modules."""
    count = 65536
    parts = [f"module m{count - 1}(input x, output y); assign y = ~x; endmodule"]
    for k in range(count - 2, -1, -1):
        parts.append(f"module m{k}(input x, output y); m{k + 1} u(x, y); endmodule")
    return lines(*parts, "module t(input clk, input a, output q); m0 u(a, q); endmodule")


def tree():
    """65,534 instances as a tree."""
    depth = 15
    parts = [f"module m{depth}(input x, output y); assign y = ~x; endmodule"]
    for k in range(depth - 1, -1, -1):
        parts.append(f"module m{k}(input x, output y); wire z; m{k + 1} u(x, z); m{k + 1} v(z, y); endmodule")
    return lines(*parts, "module t(input clk, input a, output q); m0 u(a, q); endmodule")


def copies():
    """100,000 nets, each copied from the one before, in reverse order."""
    count = 100000
    nets = [f"wire n{k}=n{k - 1};" for k in range(count - 1, 0, -1)]
    return lines("module t(input clk, input a, output q);", *nets, "wire n0=a;", f"assign q=n{count - 1};", "endmodule")


def bit_by_bit():
    """30,000 drivers of single bits: wires of 128 bits driven bit by bit."""
    count = 30000 // 128
    parts = ["module t(input clk, input a, output q);"]
    for k in range(count):
        parts.append(f"wire [127:0] w{k};")
        parts += [f"assign w{k}[{i}]={f'w{k}[{i - 1}]' if i else (f'w{k - 1}[127]' if k else 'a')};" for i in range(128)]
    return lines(*parts, f"assign q=w{count - 1}[127];", "endmodule")


def one_wire():
    """One bit of a wire of 128 bits driven 30,000 times."""
    drivers = [f"assign w[{i % 128}]=a;" for i in range(30000)]
    return lines("module t(input clk, input a, output q); wire [127:0] w;", *drivers, "assign q=w[127];", "endmodule")


def case_items():
    """A case of 50,000 items."""
    items = [f"{k}:r<={k % 256};" for k in range(50000)]
    return lines("module t(input clk, input [15:0] a, output reg [7:0] r);", "always @(posedge clk) case (a)", *items, "default: r<=0; endcase", "endmodule")


def statements(sign, guard, times=500000):
    """A block of many statements on one register, made by macros."""
    parts = [f"`define A0 {guard}r{sign}a;"]
    names, k = 1, 0
    while names * 10 <= times // 5:
        parts.append(f"`define A{k + 1} " + f"`A{k} " * 10)
        names, k = names * 10, k + 1
    uses = f"`A{k} " * (times // names)
    return parts, uses


def clocked(guard):
    macros, uses = statements("<=", guard)
    return lines(*macros, "module t(input clk, input [7:0] a, output [7:0] q); reg [7:0] r; assign q = r;", f"always @(posedge clk) begin {uses} end", "endmodule")


def combinational(guard):
    macros, uses = statements("=", guard)
    return lines(*macros, "module t(input clk, input [7:0] a, output [7:0] q); reg [7:0] r; assign q = r;", f"always @* begin r = 0; {uses} end", "endmodule")


def ports():
    """260,000 ports."""
    names = ",".join(f"input p{k}" for k in range(260000))
    return lines(f"module t(input clk,{names},output q);", "assign q=p0;", "endmodule")


def registers():
    """300,000 registers."""
    return lines("module t(input clk, input a);", "reg " + ",".join(f"r{k}" for k in range(300000)) + ";", "endmodule")


def additions():
    """1,000,000 additions in one expression."""
    return lines("module t(input clk, input [7:0] a, output [7:0] q);", "assign q=a" + "+a" * 1000000 + ";", "endmodule")


def two_memories():
    """Two memories of 65,536 words of 128 bits, a variable index on both sides."""
    return lines(
        "module t(input clk, input [15:0] a, input [15:0] b, output [127:0] q);",
        "reg [127:0] m [0:65535]; reg [127:0] n [0:65535];",
        "always @(posedge clk) begin m[a] <= n[b]; n[b] <= m[a] + 1; end",
        "assign q = m[b];",
        "endmodule",
    )


BESIDE = [("a datapath of 40 stages", datapath, ("a", 32, "b", 32)), ("2,000 instances of a small block", instances, ("a", 8, "b", 8)), ("a memory of 65,536 words", memory, ("a", 16, "b", 32))]

# name, text, inputs of a cycle, seconds, MiB
LARGE = [
    ("ordinary modules, an instance of each", ordinary_modules, "rst=0 a=5", 2, 800),
    ("a chain of instances", chain, "a=1", 3, 1024),
    ("a tree of instances", tree, "a=1", 3, 1024),
    ("nets copied in reverse order", copies, "a=1", 2, 800),
    ("wires driven bit by bit", bit_by_bit, "a=1", 2, 800),
    ("a wire driven bit by bit 30,000 times over", one_wire, "a=1", 2, 800),
    ("a case of 50,000 items", case_items, "a=7", 2, 800),
    ("a clocked block of 500,000 statements", lambda: clocked(""), "a=1", 2, 800),
    ("the same with conditions", lambda: clocked("if(a)"), "a=1", 2, 800),
    ("a combinational block of 500,000 statements", lambda: combinational(""), "a=1", 2, 800),
    ("the same, combinational, with conditions", lambda: combinational("if(a)"), "a=1", 2, 800),
    ("260,000 ports", ports, " ".join(f"p{k}=0" for k in range(260000)), 2, 800),
    ("300,000 registers", registers, "a=1", 2, 800),
    ("1,000,000 additions", additions, "a=1", 2, 800),
    ("two memories of 65,536 words of 128 bits", two_memories, "a=3 b=4", 1, 300),
]


def with_loop(text):
    """The text with a loop in its last module."""
    at = text.rindex("endmodule")
    return text[:at] + "wire loop0; wire loop1; assign loop0 = loop1; assign loop1 = loop0; endmodule\n"


def limited():
    resource.setrlimit(resource.RLIMIT_AS, (12 << 30, 12 << 30))


def timed(words):
    """Seconds on the wall and of processor time, MiB, the exit status and what was written."""
    start = time.monotonic()
    with tempfile.TemporaryFile() as out:
        ran = subprocess.Popen(words, stdout=out, stderr=subprocess.DEVNULL, preexec_fn=limited)
        try:
            _, status, used = wait(ran.pid, start + LIMIT)
        except TimeoutError:
            ran.kill()
            _, status, used = os.wait4(ran.pid, 0)
            return time.monotonic() - start, used.ru_utime + used.ru_stime, used.ru_maxrss / 1024, None, ""
        ran.returncode = status
        out.seek(0)
        took = time.monotonic() - start
        return took, used.ru_utime + used.ru_stime, used.ru_maxrss / 1024, os.waitstatus_to_exitcode(status), out.read().decode(errors="replace")


def wait(pid, until):
    while time.monotonic() < until:
        got, status, used = os.wait4(pid, os.WNOHANG)
        if got:
            return got, status, used
        time.sleep(0.005)
    raise TimeoutError


def written(folder, name, text):
    path = os.path.join(folder, name)
    with open(path, "w", encoding="utf8") as file:
        file.write(text)
    return path


def beside_vvp(program, designs, name, form, inputs, draw):
    """Many cycles of a design, beside `vvp`."""
    with tempfile.TemporaryDirectory() as folder:
        text = form(draw)
        pairs = list(zip(inputs[::2], inputs[1::2]))
        stimuli = "".join("in " + " ".join(f"{it}={draw.randrange(1 << width)}" for it, width in pairs) + "\n" for _ in range(CYCLES))
        source, script, made = written(folder, "t.v", text), written(folder, "s", stimuli), os.path.join(folder, "bench")
        bench = written(folder, "bench.v", designs.bench_of(designs.Design(text), stimuli))
        ours, _, room, status, found = timed([program, "simulate-rtl", "--top", "t", "--clock", "clk", "--script", script, source])
        compiled, _, _, _, _ = timed(["iverilog", "-g2005", "-o", made, bench, source])
        theirs, _, _, _, wanted = timed(["vvp", "-n", made])
    told, shown = ([it for it in text.splitlines() if not it.startswith("end")] for text in (found, wanted))
    alike = "alike" if told == shown else "DIFFERENT"
    print(f"{name}: {ours:.2f} s, {room:.0f} MiB, status {status}; iverilog {compiled:.2f} s, vvp {theirs:.2f} s: {ours / theirs:.2f} of vvp (bound 0.20); {alike}", flush=True)


def tell(name, text, ran, seconds, most):
    """Prints what a run took, beside its bound."""
    took, used, room, status, found = ran
    first = found.split("\n", 1)[0][:40]
    over = "" if status is not None and used <= seconds and room <= most else " OVER"
    how = f"status {status}" if status is not None else f"stopped after {LIMIT} s"
    size = f"{len(text) / (1 << 20):.1f} MiB"
    print(f"{name} ({size}): {used:.2f} s of processor, {took:.2f} s, {room:.0f} MiB, {how}, `{first}` (bound {seconds} s, {most} MiB){over}", flush=True)


def large(program, name, form, inputs, seconds, most):
    """A large text: read alone, judged alone, and run for two cycles (one where a line of the script is large)."""
    with tempfile.TemporaryDirectory() as folder:
        text = form()
        cycles = 2 if len(inputs) < 1000000 else 1
        source, looped = written(folder, "t.v", text), written(folder, "loop.v", with_loop(text))
        script = written(folder, "s", f"in {inputs}\n" * cycles)
        words = [program, "simulate-rtl", "--clock", "clk", "--script", script]
        tell(f"{name}, read", text, timed([*words, "--top", "no_such_module", source]), seconds, most)
        tell(f"{name}, judged", text, timed([*words, "--top", "t", looped]), seconds, most)
        tell(name, text, timed([*words, "--top", "t", source]), seconds, most)


def main(words):
    program = words[0] if words else os.path.join(TOP, "crates", "wb_main", "out", "wb_main")
    wanted = words[1] if len(words) > 1 else ""
    designs, draw = library(), random.Random(7)
    for name, form, inputs in BESIDE:
        if wanted in name:
            beside_vvp(program, designs, name, form, inputs, draw)
    for name, form, inputs, seconds, most in LARGE:
        if wanted in name:
            large(program, name, form, inputs, seconds, most)
    return 0


if __name__ == "__main__":
    sys.exit(main(sys.argv[1:]))
