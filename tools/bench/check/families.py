"""Models, maps and designs for the measurements of `check`: families that grow, and files at their greatest length that break the last rule.

Each function gives a model, a map and the text of a design: the families as objects, the hostile files as texts.
"""
import json

LENGTH = 4_194_304


def lines(*parts):
    return "\n".join(parts) + "\n"


def model_of(name, states, inputs, instructions, **more):
    return {"name": name, "states": states, "inputs": inputs, "valid": True, "instructions": instructions, **more}


def map_of(top, states, inputs, instructions, **more):
    reset = {"signal": "rst", "active": 1, "cycles": 1}
    plain = {"version": 1, "top": top, "clock": "clk", "reset": reset, "assume": [], "invariants": [], "start": "go"}
    return {**plain, "states": states, "inputs": inputs, "instructions": instructions, **more}


def bounded(name, commit="1", bound=1):
    return {"name": name, "commit": commit, "bound": bound}


def datapath(width):
    """An accumulator of so many bits with four operations, each of one cycle."""
    top = (width - 1).bit_length() - 1
    amount = ["zext", width, ["extract", top, 0, "x"]]
    terms = {"ADD": ["add", "acc", "x"], "AND": ["and", "acc", "x"], "XOR": ["xor", "acc", "x"], "SHIFT": ["shl", "acc", amount]}
    instructions = [
        {"name": name, "decode": ["eq", "op", ["const", 2, code]], "update": {"acc": term}} for code, (name, term) in enumerate(terms.items())
    ]
    model = model_of(
        "datapath", [{"name": "acc", "sort": width, "init": 0}], [{"name": "op", "sort": 2}, {"name": "x", "sort": width}], instructions
    )
    mapping = map_of("datapath", {"acc": "acc"}, {"op": "op", "x": "x"}, [bounded(name) for name in terms])
    text = lines(
        f"// An accumulator of {width} bits with four operations, each of one cycle.",
        "module datapath(",
        "  input clk, input rst,",
        f"  input go, input [1:0] op, input [{width - 1}:0] x,",
        f"  output [{width - 1}:0] q",
        ");",
        f"  reg [{width - 1}:0] acc;",
        f"  reg [{width - 1}:0] result;",
        "  assign q = acc;",
        "",
        "  always @*",
        "    case (op)",
        "      2'd0: result = acc + x;",
        "      2'd1: result = acc & x;",
        "      2'd2: result = acc ^ x;",
        f"      default: result = acc << x[{top}:0];",
        "    endcase",
        "",
        "  always @(posedge clk)",
        f"    if (rst) acc <= {width}'d0;",
        "    else if (go) acc <= result;",
        "endmodule",
    )
    return model, mapping, text


def waiting(cycles, is_exact):
    """A total to which a command adds a step, at a counter's end: in so many cycles, or in any number from 2 up to so many."""
    last = f"8'd{cycles - 2}"
    model = model_of(
        "waiting",
        [{"name": "total", "sort": 8, "init": 0}],
        [{"name": "step", "sort": 8}],
        [{"name": "ADD", "decode": True, "update": {"total": ["add", "total", "step"]}}],
    )
    mapping = map_of(
        "waiting",
        {"total": "total"},
        {"step": "step"},
        [bounded("ADD", "done", cycles)],
        start="go && !busy",
        invariants=["!busy"],
        assume=[] if is_exact else [f"length <= {last}"],
    )
    text = lines(
        "// A total of 8 bits. A command adds a step to it when a counter has come to its end.",
        "module waiting(",
        "  input clk, input rst,",
        "  input go, input [7:0] step," if is_exact else "  input go, input [7:0] step, input [7:0] length,",
        "  output done, output [7:0] sum",
        ");",
        "  reg busy;",
        "  reg [7:0] left;  // cycles that are still to be waited for",
        "  reg [7:0] kept;  // what is to be added",
        "  reg [7:0] total;",
        "  assign done = busy && left == 8'd0;",
        "  assign sum = total;",
        "",
        "  always @(posedge clk)",
        "    if (rst) begin",
        "      busy <= 1'b0;",
        "      total <= 8'd0;",
        "    end else if (!busy) begin",
        "      if (go) begin",
        "        busy <= 1'b1;",
        f"        left <= {last if is_exact else 'length'};",
        "        kept <= step;",
        "      end",
        "    end else if (left == 8'd0) begin",
        "      busy <= 1'b0;",
        "      total <= total + kept;",
        "    end else",
        "      left <= left - 8'd1;",
        "endmodule",
    )
    return model, mapping, text


def register_file(count):
    """So many registers of 32 bits, each with its own name: a word is written to one of them, or added to it."""
    width = (count - 1).bit_length()
    names = [f"r{k}" for k in range(count)]
    chosen = {name: ["eq", "place", ["const", width, k]] for k, name in enumerate(names)}
    model = model_of(
        "register_file",
        [{"name": name, "sort": 32, "init": 0} for name in names],
        [{"name": "adds", "sort": 1}, {"name": "place", "sort": width}, {"name": "data", "sort": 32}],
        [
            {"name": "WRITE", "decode": ["eq", "adds", ["const", 1, 0]], "update": {it: ["ite", chosen[it], "data", it] for it in names}},
            {"name": "ADD", "decode": ["eq", "adds", ["const", 1, 1]], "update": {it: ["ite", chosen[it], ["add", it, "data"], it] for it in names}},
        ],
    )
    inputs = {"adds": "adds", "place": "place", "data": "data"}
    mapping = map_of("register_file", {it: it for it in names}, inputs, [bounded("WRITE"), bounded("ADD")])
    text = lines(
        f"// {count} registers of 32 bits. A word is written to the one at a place, or added to it.",
        "module register_file(",
        "  input clk, input rst,",
        f"  input go, input adds, input [{width - 1}:0] place, input [31:0] data,",
        "  output [31:0] first",
        ");",
        *[f"  reg [31:0] {it};" for it in names],
        "  assign first = r0;",
        "",
        "  always @(posedge clk)",
        "    if (rst) begin",
        *[f"      {it} <= 32'd0;" for it in names],
        "    end else if (go) begin",
        *[f"      if (place == {width}'d{k}) {it} <= adds ? {it} + data : data;" for k, it in enumerate(names)],
        "    end",
        "endmodule",
    )
    return model, mapping, text


def compact(value):
    return json.dumps(value, separators=(",", ":"))


def filled(length, texts):
    """Texts with empty lines up to a length."""
    for text in texts:
        if len(text) > length:
            raise ValueError(f"{len(text)} bytes")
    return tuple(text + "\n" * (length - len(text)) for text in texts)


def numbered(letter, count):
    return [f"{letter}{k:06}" for k in range(count)]


HEAD = "module t(input clk, input rst, input go, input [7:0] a, output [7:0] q);"
LOOP = "wire loop0; wire loop1; assign loop0 = loop1; assign loop1 = loop0;"
ENDLESS = {"name": "LAST", "decode": True, "update": {}, "child": {"states": [], "valid": False, "steps": 0, "instructions": []}}


def many_registers(length, broken):
    """As many states, registers and entries as fit. The map, the model or the design breaks the last of its rules."""
    names = numbered("r", (length - 1000) // 38)
    last = ENDLESS if broken == "model" else {"name": "LAST", "decode": True, "update": {}}
    model = model_of("m", [{"name": it, "sort": 8, "init": 0} for it in names], [], [last])
    mapping = map_of("t", {it: f"{it}&{it}" for it in names}, {}, [bounded("LAST", "1", 257 if broken == "map" else 1)])
    loop = [LOOP] if broken == "design" else []
    writes = [f"if(go){it}<=a;" for it in names]
    registers = [f"reg [7:0] {it};" for it in names]
    text = lines(HEAD, *registers, f"assign q = {names[0]};", *loop, "always @(posedge clk) begin", *writes, "end", "endmodule")
    return filled(length, (compact(model), compact(mapping), text))


def long_chains(length):
    """Definitions that each use the one before twice, nets that each copy the next one, and an expression that names them all. The map breaks the
    last rule."""
    count, nets = (length - 2000) // 86, numbered("n", (length - 1000) // 28)
    words, memories = numbered("d", count), numbered("e", count)
    define = [[words[0], ["add", "cnt", "cnt"]], [memories[0], ["ite", "t", "m", "m"]]]
    define += [[it, ["add", before, before]] for before, it in zip(words, words[1:])]
    define += [[it, ["ite", "t", before, before]] for before, it in zip(memories, memories[1:])]
    states = [{"name": "cnt", "sort": 8, "init": 0}, {"name": "m", "sort": [1, 8]}]
    update = {"cnt": words[-1], "m": memories[-1]}
    model = model_of("m", states, [{"name": "t", "sort": "bool"}], [{"name": "GO", "decode": "t", "update": update}], define=define)
    named = [nets[-1 - k % len(nets)] for k in range((length - 1000) // 8)]
    mapping = map_of("t", {"cnt": "&".join(named), "m": "m"}, {"t": "go"}, [bounded("GO", "1", 257)])
    copies = [f"wire [7:0] {it}={before};" for before, it in zip(nets, nets[1:])]
    block = "always @(posedge clk) begin m[a[0]] <= a; if (rst) cnt <= 0; else cnt <= a; end"
    registers = ["reg [7:0] cnt; reg [7:0] m [0:1];", f"wire [7:0] {nets[0]}=cnt;", f"assign q = {nets[-1]};", block]
    text = lines(HEAD, *reversed(copies), *registers, "endmodule")
    return filled(length, (compact(model), compact(mapping), text))


def many_instances(length):
    """As many instances in a row, instructions and entries as fit, each named from the top. The map breaks the last rule."""
    count = (length - 1000) // 78
    states, blocks, names, nets = numbered("s", count), numbered("u", count), numbered("I", count), numbered("q", count)
    model = model_of("m", [{"name": it, "sort": 8} for it in states], [], [{"name": it, "decode": True, "update": {}} for it in names])
    entries = [bounded(it, f"{block}.r[0]") for it, block in zip(names, blocks)]
    entries[-1]["bound"] = 257
    mapping = map_of("t", {it: f"{block}.r" for it, block in zip(states, blocks)}, {}, entries)
    block_text = "module b(input clk, input [7:0] p, output [7:0] n); reg [7:0] r; assign n = r; always @(posedge clk) r <= p; endmodule"
    row = [f"wire [7:0] {net};b {block}(clk,{before},{net});" for before, block, net in zip(["a", *nets], blocks, nets)]
    return filled(length, (compact(model), compact(mapping), lines(block_text, HEAD, *row, f"assign q = {nets[-1]};", "endmodule")))
