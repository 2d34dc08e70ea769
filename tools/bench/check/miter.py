"""Writes the obligations of a model, a map and a design as Verilog with one property each, for yosys' own SAT solver."""
import json
import re


def width(sort):
    return 1 if sort == "bool" else sort if isinstance(sort, int) else sort[1] << sort[0]


class Program:
    """A machine's names as Verilog expressions, and the terms over them."""

    def __init__(self, lines, sorts, values, defines, fetch=None):
        self.lines, self.sorts, self.values, self.defines, self.fetch = lines, dict(sorts), dict(values), dict(defines), fetch

    def fresh(self, sort, text):
        name = f"t{len(self.lines)}"
        self.lines.append(f"  wire [{width(sort) - 1}:0] {name} = {text};")
        return name

    def term(self, e):
        """The Verilog name and the sort of a term's value."""
        if e is True or e is False:
            return self.fresh("bool", f"1'd{int(e)}"), "bool"
        if isinstance(e, str):
            if e == "fetch":
                return self.term(self.fetch)
            if e in self.values:
                return self.values[e], self.sorts[e]
            return self.term(self.defines[e])
        op, *xs = e
        if op == "const":
            number = int(xs[1], 16) if isinstance(xs[1], str) else xs[1]
            return self.fresh(xs[0], f"{xs[0]}'d{number}"), xs[0]
        if op == "extract":
            x, _ = self.term(xs[2])
            return self.fresh(xs[0] - xs[1] + 1, f"{x}[{xs[0]}:{xs[1]}]"), xs[0] - xs[1] + 1
        if op in ("zext", "sext"):
            x, s = self.term(xs[1])
            fill = f"{{{xs[0] - s}{{{x}[{s - 1}]}}}}" if op == "sext" else f"{xs[0] - s}'d0"
            return (x, s) if xs[0] == s else (self.fresh(xs[0], f"{{{fill}, {x}}}"), xs[0])
        made = [self.term(x) for x in xs]
        names, sorts = [m[0] for m in made], [m[1] for m in made]
        marks = {"and": "&", "or": "|", "xor": "^", "add": "+", "sub": "-", "mul": "*", "shl": "<<", "lshr": ">>"}
        if op == "not":
            return self.fresh(sorts[0], f"~{names[0]}"), sorts[0]
        if op == "neg":
            return self.fresh(sorts[0], f"-{names[0]}"), sorts[0]
        if op in marks:
            return self.fresh(sorts[0], f"{names[0]} {marks[op]} {names[1]}"), sorts[0]
        if op == "ashr":
            return self.fresh(sorts[0], f"$signed({names[0]}) >>> {names[1]}"), sorts[0]
        tests = {"eq": "==", "ult": "<", "ule": "<="}
        if op in tests:
            return self.fresh("bool", f"{names[0]} {tests[op]} {names[1]}"), "bool"
        if op in ("slt", "sle"):
            return self.fresh("bool", f"$signed({names[0]}) {'<' if op == 'slt' else '<='} $signed({names[1]})"), "bool"
        if op == "concat":
            return self.fresh(sum(sorts), f"{{{names[0]}, {names[1]}}}"), sum(sorts)
        if op == "ite":
            return self.fresh(sorts[1], f"{names[0]} ? {names[1]} : {names[2]}"), sorts[1]
        if op == "load":
            a, d = sorts[0]
            return self.fresh(d, f"{names[0]} >> ({names[1]} * {(a + d).bit_length() + 16}'d{d})"), d
        if op == "store":
            a, d = sorts[0]
            words = [f"({names[1]} == {i} ? {names[2]} : {names[0]}[{i * d + d - 1}:{i * d}])" for i in reversed(range(1 << a))]
            return self.fresh(sorts[0], "{" + ", ".join(words) + "}"), sorts[0]
        raise ValueError(op)

    def step(self, instruction, program):
        """The values after an instruction with its child: the values, and whether each micro-step decodes and the child ends."""
        updates = {n: self.term(t)[0] for n, t in instruction["update"].items()}
        self.values.update(updates)
        if "child" not in instruction:
            return "1'b1"
        child = instruction["child"]
        inner = Program(self.lines, self.sorts, self.values, {**self.defines, **dict(child.get("define", []))}, child.get("fetch"))
        for s in child["states"]:
            init = s["init"]
            number = int(init, 16) if isinstance(init, str) else int(init)
            inner.sorts[s["name"]], inner.values[s["name"]] = s["sort"], self.fresh(s["sort"], f"{width(s['sort'])}'d{number}")
        good, running = self.fresh("bool", "1'b1"), None
        for _ in range(child["steps"]):
            valid = inner.term(child["valid"])[0]
            running = valid if running is None else self.fresh("bool", f"{running} & {valid}")
            decodes = [inner.term(i["decode"])[0] for i in child["instructions"]]
            before = dict(inner.values)
            merged, oks = dict(before), []
            for i, decode in zip(child["instructions"], decodes):
                inner.values = dict(before)
                oks.append(f"(~{decode} | {inner.step(i, inner)})")
                for n, v in inner.values.items():
                    if v != before[n]:
                        merged[n] = self.fresh(self.sort_in(inner, n), f"{running} & {decode} ? {v} : {merged[n]}")
            one = " + ".join(f"{{4'd0, {d}}}" for d in decodes)
            good = self.fresh("bool", f"{good} & (~{running} | (({one}) == 1 & {' & '.join(oks)}))")
            inner.values = merged
        ended = inner.term(child["valid"])[0]
        good = self.fresh("bool", f"{good} & ~({running} & {ended})")
        for n in self.values:
            self.values[n] = inner.values[n]
        return good

    @staticmethod
    def sort_in(program, name):
        return program.sorts[name]


def obligations(model, mapping):
    """The names of obligations with their cycles, in order."""
    ks, states = range(len(mapping["invariants"])), [s["name"] for s in model["states"]]
    reset = mapping["reset"]["cycles"]
    yield from ((f"reset.inv.{k}", reset) for k in ks)
    yield from ((f"reset.init.{s['name']}", reset) for s in model["states"] if "init" in s)
    yield from ((f"idle.inv.{k}", 1) for k in ks)
    yield from ((f"idle.state.{s}", 1) for s in states)
    yield "decode", 1
    bounds = {i["name"]: i["bound"] for i in mapping["instructions"]}
    for i in model["instructions"]:
        j = i["name"]
        if "child" in i:
            yield f"child.{j}", 1
        yield f"bound.{j}", bounds[j]
        for c in range(bounds[j]):
            yield from ((f"commit.{j}.{c}.inv.{k}", c + 1) for k in ks)
            yield from ((f"commit.{j}.{c}.state.{s}", c + 1) for s in states)


def miter(model, mapping, texts, name):
    """The text of the design with a property `wb_ok` in its top, that is false at the last step just where the obligation is broken."""
    lines, sorts = [], {s["name"]: s["sort"] for s in [*model["states"], *model["inputs"]]}
    text = "\n".join(texts)
    memories = dict(re.findall(r"reg\s*\[\d+:0\]\s*(\w+)\s*\[0:(\d+)\]", text))

    def expression(sort, e):
        if e in memories:
            return "{" + ", ".join(f"{e}[{i}]" for i in reversed(range(int(memories[e]) + 1))) + "}"
        return e

    mapped = {s["name"]: f"m_{s['name']}" for s in [*model["states"], *model["inputs"]]}
    for s in [*model["states"], *model["inputs"]]:
        e = mapping["states"].get(s["name"]) or mapping["inputs"][s["name"]]
        lines.append(f"  wire [{width(s['sort']) - 1}:0] m_{s['name']} = {expression(s['sort'], e)};")
    machine = Program(lines, sorts, mapped, dict(model.get("define", [])), model.get("fetch"))
    active = mapping["reset"]["signal"] if mapping["reset"]["active"] else f"!{mapping['reset']['signal']}"
    invariants = " && ".join(f"(({e}) != 0)" for e in mapping["invariants"]) or "1'b1"
    assume = " && ".join([f"!({active})", *[f"(({e}) != 0)" for e in mapping["assume"]]])
    lines += [f"  (* keep *) reg [15:0] wb_t = 0;", f"  always @(posedge {mapping['clock']}) wb_t <= wb_t + 1;", f"  wire wb_inv = {invariants};",
              f"  wire wb_a = {assume};", f"  wire wb_start = ({mapping['start']}) != 0;", f"  wire wb_active = {active};"]
    part, cycles = name.split("."), dict(obligations(model, mapping))[name]

    def kept(text, test="wb_t == 0"):
        """A register that holds a value of the first cycle, and the value at that cycle and after it."""
        n = f"k{len(lines)}"
        lines.append(f"  reg {n}; wire {n}_now = {test} ? ({text}) : {n}; always @(posedge {mapping['clock']}) {n} <= {n}_now;")
        return f"{n}_now"

    def same(names, values):
        texts = []
        for n in names:
            r, w = f"h{len(lines)}", width(sorts[n])
            lines.append(f"  reg [{w - 1}:0] {r}; always @(posedge {mapping['clock']}) if (wb_t == 0) {r} <= {values[n]};")
            texts.append(f"m_{n} == {r}")
        return " && ".join(texts)

    def claim_of(rest, values):
        return f"({mapping['invariants'][int(rest[1])]}) != 0" if rest[0] == "inv" else same([rest[1]], values)

    always = f"w{len(lines)}"
    at_end = f"wb_t == {cycles}"
    if part[0] == "reset":
        lines.append(f"  reg {always} = 1; always @(posedge {mapping['clock']}) {always} <= {always} && wb_active;")
        if part[1] == "inv":
            claim = f"({mapping['invariants'][int(part[2])]}) != 0"
        else:
            state = next(s for s in model["states"] if s["name"] == part[2])
            init = state["init"]
            claim = f"m_{part[2]} == {width(state['sort'])}'d{int(init, 16) if isinstance(init, str) else int(init)}"
        bad = f"{at_end} && {always} && !({claim})"
    elif part[0] == "idle":
        first = kept("wb_inv && wb_a && !wb_start")
        bad = f"{at_end} && {first} && !({claim_of(part[1:], mapped)})"
    else:
        decodes = {i["name"]: machine.term(i["decode"])[0] for i in model["instructions"]}
        if part[0] == "decode":
            valid = machine.term(model["valid"])[0]
            one = " + ".join(f"{{8'd0, {d}}}" for d in decodes.values()) or "8'd0"
            bad = f"wb_t == 0 && wb_inv && wb_a && wb_start && !({valid} && ({one}) == 1)"
        else:
            j = part[1]
            instruction = next(i for i in model["instructions"] if i["name"] == j)
            commit = f"(({next(i['commit'] for i in mapping['instructions'] if i['name'] == j)}) != 0)"
            first = f"wb_inv && wb_a && wb_start && {decodes[j]}"
            if part[0] == "child":
                good = machine.step(instruction, machine)
                bad = f"wb_t == 0 && {first} && !{good}"
            else:
                lines.append(f"  wire wb_open = wb_t == 0 ? ({first}) : (wb_a && !wb_start);")
                last = cycles - 1
                commits = f"!{commit}" if part[0] == "bound" else f"(wb_t == {last} ? {commit} : !{commit})"
                lines.append(f"  reg wb_so_far = 1; wire wb_whole = wb_so_far && wb_open && {commits}; always @(posedge {mapping['clock']}) wb_so_far <= wb_whole;")
                if part[0] == "bound":
                    bad = f"wb_t == {last} && wb_whole"
                else:
                    good = kept(machine.step(instruction, machine)) if part[3] == "state" else None
                    claim = claim_of(part[3:], machine.values)
                    if good:
                        claim = f"!{good} || ({claim})"
                    bad = f"{at_end} && wb_so_far && !({claim})"
    lines.append(f"  (* keep *) wire wb_ok = !({bad});")
    steps = cycles if part[0] in ("bound", "decode", "child") else cycles + 1
    top = mapping["top"]
    body = re.search(rf"module\s+{top}\b.*?endmodule", text, re.S)
    made = body.group()[: -len("endmodule")] + "\n".join(lines) + "\nendmodule"
    return text[: body.start()] + made + text[body.end():], steps


def script(path, top, steps):
    """The words for yosys: proves the property over so many steps from any registers."""
    return (f"read_verilog {path}; prep -top {top} -flatten; memory_map; opt; "
            f"sat -verify -seq {steps} -prove wb_ok 1 -ignore_unknown_cells")
