"""Model files and scripts that are made to hurt, each with its bound: what `run.py` measures."""
import json

LIMIT = 4_194_304
STEP = "in\n"


def compact(value):
    return json.dumps(value, separators=(",", ":"))


def model(states=(), inputs=(), instructions=(), **more):
    return {"name": "m", "states": list(states), "inputs": list(inputs), "valid": True, "instructions": list(instructions), **more}


def word(name, width, init=0):
    return {"name": name, "sort": width, "init": init}


def memory(name, address, width):
    return {"name": name, "sort": [address, width]}


def go(update, name="GO", decode=True, **more):
    return {"name": name, "decode": decode, "update": update, **more}


def number(width, value):
    return ["const", width, value]


def child(width, steps, update, private=(), counter="i", name="IN", **more):
    """A child program that counts its steps, up to a number of them."""
    return {"states": [word(counter, width), *private], "valid": ["ult", counter, number(width, steps)], "steps": steps,
            "instructions": [go({counter: ["add", counter, number(width, 1)], **update}, name, **more)]}


def full(make, unit):
    """A text of nearly the limit that `make` gives, in steps of a unit: the text and how many units it has."""
    count = LIMIT // max(1, len(make(unit)) // unit) // unit * unit
    while True:
        text = make(count)
        if len(text) <= LIMIT:
            return text, count
        count = (count * LIMIT // len(text) - 1) // unit * unit


# What a model is made of.

def counter():
    return compact(model(
        [word("cnt", 8)], [{"name": "op", "sort": 1}],
        [go({"cnt": ["add", "cnt", number(8, 1)]}, "INC", ["eq", "op", number(1, 1)]), go({"cnt": number(8, 0)}, "CLR", ["eq", "op", number(1, 0)])]))


def many_states(count):
    return compact(model([word(f"s{k}", 8) for k in range(count)], [], [go({f"s{count - 1}": ["add", "s0", number(8, 7)]})]))


def many_updates(count):
    return compact(model([word(f"s{k}", 8) for k in range(count)], [], [go({f"s{k}": ["not", f"s{k}"] for k in range(count)})]))


def many_inputs(count):
    return compact(model([word("s", 8)], [{"name": f"i{k}", "sort": 8} for k in range(count)], [go({"s": ["add", "s", "i0"]})]))


def many_instructions(count):
    never = [go({}, f"N{k}", ["eq", "s", number(8, 1)]) for k in range(count)]
    return compact(model([word("s", 8)], [], [*never, go({"s": ["add", "s", number(8, 2)]})]))


def long_names(count):
    return compact(model([word(("a" * 58) + f"{k:06}", 8) for k in range(count)], [], [go({})]))


def chain_of_definitions(count):
    definitions = [["d0", ["add", "s", number(8, 1)]]] + [[f"d{k}", ["add", f"d{k - 1}", "s"]] for k in range(1, count)]
    return compact(model([word("s", 8, 1)], [], [go({"s": f"d{count - 1}"})], define=definitions))


def unused_definitions(count):
    definitions = [["d0", ["add", "s", number(8, 1)]]] + [[f"d{k}", ["add", f"d{k - 1}", "s"]] for k in range(1, count)]
    return compact(model([word("s", 8, 1)], [], [go({"s": ["add", "s", number(8, 1)]})], define=definitions))


def doubled_definitions(count, operator):
    """Each definition has the one before it twice, so that the tree has 2^count leaves."""
    definitions = [["d0", "s"]] + [[f"d{k}", [operator, f"d{k - 1}", f"d{k - 1}"]] for k in range(1, count)]
    return compact(model([word("s", 128, 3)], [], [go({"s": f"d{count - 1}"})], define=definitions))


def nested_terms(depth):
    term = "s"
    for _ in range(depth):
        term = ["not", term]
    return compact(model([word("s", 8, 1)], [], [go({"s": term})]))


def many_shifts(count):
    definitions = [["d0", ["shl", "s", "s"]]] + [[f"d{k}", [("shl", "lshr", "ashr")[k % 3], f"d{k - 1}", "s"]] for k in range(1, count)]
    return compact(model([word("s", 128, 1)], [], [go({"s": f"d{count - 1}"})], define=definitions))


def parts_and_joints(count):
    definitions = [["d0", "s"]] + [[f"d{k}", ["concat", ["extract", 63, 0, f"d{k - 1}"], ["extract", 127, 64, f"d{k - 1}"]]] for k in range(1, count)]
    return compact(model([word("s", 128, 5)], [], [go({"s": f"d{count - 1}"})], define=definitions))


# Memories.

def stores_and_loads(count):
    """A chain of stores, and after each a load from the chain so far."""
    definitions = [["d0", ["store", "m", "a", "x"]], ["e0", ["load", "d0", "a"]]]
    for k in range(1, count):
        definitions += [[f"d{k}", ["store", f"d{k - 1}", f"e{k - 1}", "x"]], [f"e{k}", ["load", f"d{k}", "a"]]]
    return compact(model([memory("m", 16, 16), word("a", 16), word("x", 16, 7)], [], [go({"m": f"d{count - 1}", "x": f"e{count - 1}"})], define=definitions))


def loads_of_loads(count):
    definitions = [["d0", ["load", "m", "a"]]] + [[f"d{k}", ["load", "m", f"d{k - 1}"]] for k in range(1, count)]
    return compact(model([memory("m", 16, 16), word("a", 16)], [], [go({"a": f"d{count - 1}"})], define=definitions))


def choices_of_stores(count):
    definitions = [["d0", ["store", "m", "a", "x"]]] + [[f"d{k}", ["ite", ["eq", "a", number(16, k % 65536)], f"d{k - 1}", ["store", f"d{k - 1}", "x", "a"]]] for k in range(1, count)]
    return compact(model([memory("m", 16, 16), word("a", 16), word("x", 16, 7)], [], [go({"m": f"d{count - 1}"})], define=definitions))


def many_memories(count, address, width):
    return compact(model([memory(f"m{k}", address, width) for k in range(count)], [], [go({})]))


def one_word_each(count):
    """Memories of which one word each is stored."""
    return compact(model([memory(f"m{k}", 16, 1) for k in range(count)], [],
                         [go({f"m{k}": ["store", f"m{k}", number(16, k), number(1, 1)] for k in range(count)})]))


def stored_by_a_child(steps):
    inner = child(13, steps, {"m": ["store", "m", ["zext", 16, "i"], number(1, 1)]})
    return compact(model([memory("m", 16, 1)], [], [go({}, child=inner)]))


def stored_by_children(steps, address, width):
    store = ["store", "m", ["zext", address, "j"], ["zext", width, ["extract", 7, 0, "i"]]] if address > 13 else ["store", "m", ["extract", address - 1, 0, "j"], ["extract", width - 1, 0, "i"]]
    inner = child(13, steps, {"m": store}, counter="j")
    outer = {"states": [word("i", 13)], "valid": ["ult", "i", number(13, steps)], "steps": steps,
             "instructions": [go({"i": ["add", "i", number(13, 1)]}, "OUT", child=inner)]}
    return compact(model([memory("m", address, width)], [], [go({}, child=outer)]))


def one_memory(address, width):
    return compact(model([memory("m", address, width)], [{"name": "a", "sort": address}], [go({"m": ["store", "m", "a", number(width, 1)]})]))


# Children.

def nested_children(steps):
    inner = child(13, steps, {"s": ["add", "s", number(32, 1)]}, counter="j")
    outer = {"states": [word("i", 13)], "valid": ["ult", "i", number(13, steps)], "steps": steps,
             "instructions": [go({"i": ["add", "i", number(13, 1)]}, "OUT", child=inner)]}
    return compact(model([word("s", 32)], [], [go({}, child=outer)]))


def three_levels(first, second, third):
    low = child(13, third, {"s": ["add", "s", number(64, 1)]}, counter="k", name="LOW")
    middle = {"states": [word("j", 13)], "valid": ["ult", "j", number(13, second)], "steps": second,
              "instructions": [go({"j": ["add", "j", number(13, 1)]}, "MIDDLE", child=low)]}
    high = {"states": [word("i", 13)], "valid": ["ult", "i", number(13, first)], "steps": first,
            "instructions": [go({"i": ["add", "i", number(13, 1)]}, "HIGH", child=middle)]}
    return compact(model([word("s", 64)], [], [go({}, child=high)]))


def child_with_private_states(count, steps):
    inner = child(13, steps, {"s": ["add", "s", number(32, 1)]}, [word(f"p{k}", 8) for k in range(count)])
    return compact(model([word("s", 32)], [], [go({}, child=inner)]))


def child_beside_definitions(count, steps):
    """A child of many steps in a model of many definitions that nothing uses."""
    definitions = [["d0", ["add", "t", number(8, 1)]]] + [[f"d{k}", ["add", f"d{k - 1}", "t"]] for k in range(1, count)]
    inner = child(13, steps, {"s": ["add", "s", number(32, 1)]})
    return compact(model([word("s", 32), word("t", 8)], [], [go({}, child=inner)], define=definitions))


def endless_child(steps):
    inner = child(13, steps, {})
    inner["valid"] = True
    return compact(model([word("s", 32)], [], [go({}, child=inner)]))


# Texts that are refused.

def last_is_unknown(count):
    return compact(model([word(f"s{k}", 8) for k in range(count)], [], [go({"s0": "zz"})]))


def one_name(count):
    return compact(model([word("s", 8) for _ in range(count)], [], [go({})]))


def one_key(count):
    """The key `valid` many times over."""
    return '{"name":"m","states":[],"inputs":[],"instructions":[],' + ",".join(['"valid":true'] * count) + "}"


def unknown_keys(count):
    return '{"name":"m","states":[],"inputs":[],"instructions":[],"valid":true,' + ",".join(f'"x{k}":0' for k in range(count)) + "}"


def unknown_lists(count):
    return '{"name":"m","states":[],"inputs":[],"instructions":[],"valid":true,"x":[' + ",".join(["[]"] * count) + "]}"


def deep_lists(count):
    return '{"name":"m","states":[],"inputs":[],"instructions":[],"valid":true,"x":' + "[" * count + "]" * count + "}"


def long_text(count):
    return '{"name":"' + "a" * count + '","states":[],"inputs":[],"instructions":[],"valid":true}'


def long_number(count):
    return '{"name":"m","states":[{"name":"s","sort":8,"init":' + "1" * count + '}],"inputs":[],"instructions":[],"valid":true}'


def rows():
    """Each form: its name, the model, the script, and its bound in seconds of processor time and in MiB (None: none is stated)."""
    states, state_count = full(many_states, 5000)
    definitions, definition_count = full(chain_of_definitions, 5000)
    pairs, pair_count = full(stores_and_loads, 1000)
    loads, load_count = full(loads_of_loads, 5000)
    choices, choice_count = full(choices_of_stores, 1000)
    memories, memory_count = full(lambda n: many_memories(n, 1, 1), 1000)
    unused, unused_count = full(unused_definitions, 5000)
    instructions, instruction_count = full(many_instructions, 1000)
    inputs, input_count = full(many_inputs, 5000)
    names, name_count = full(long_names, 1000)
    shifts, shift_count = full(many_shifts, 5000)
    parts, part_count = full(parts_and_joints, 1000)
    privates = child_with_private_states(50_000, 4096)
    values = " ".join(f"i{k}=1" for k in range(input_count))
    words = " ".join(f"m[{k}]=1" for k in range(65_536))
    two = 2.0
    # What is named for memories, micro-steps and evaluation.
    yield f"a model of 4 MiB: {pair_count} stores, and a load after each", pairs, STEP, two, 600
    yield f"{memory_count} memories of two bits, 4 MiB", memories, STEP, two, 600
    yield "3,000 memories of 65,536 bits, 92 KB", many_memories(3000, 16, 1), STEP, two, 600
    yield "a child of 4,096 steps that each store into 65,536 words", stored_by_a_child(4096), STEP, 1.0, 100
    yield "a child of 4,096 steps in a child of 4,096 steps, each storing into 16 words", stored_by_children(4096, 4, 8), STEP, 10.0, 100
    yield "a child of 4,096 steps in a child of 4,096 steps, each storing into 65,536 words", stored_by_children(4096, 16, 16), STEP, 10.0, 100
    yield f"{unused_count} definitions that nothing reads, and a script of 4 MiB", unused, "in\n" * (LIMIT // 3), 10.0, 600
    # Size alone.
    yield f"{state_count} states, 4 MiB, one step", states, STEP, 1.0, 400
    yield f"a chain of {definition_count} definitions, 4 MiB, one step", definitions, STEP, 1.0, 400
    yield "100,000 states, one step", many_states(100_000), STEP, 1.0, 400
    yield "a chain of 100,000 definitions, three steps", chain_of_definitions(100_000), STEP * 3, 1.0, 400
    yield "60,000 states that are all updated, one step", many_updates(60_000), STEP, two, 600
    yield f"{input_count} inputs, 4 MiB, one step", inputs, f"in {values}\n", two, 600
    yield f"{instruction_count} instructions of which one decodes, 4 MiB, one step", instructions, STEP, two, 600
    yield f"{name_count} names of 64 bytes that differ at their end, 4 MiB", names, STEP, two, 600
    yield f"a chain of {shift_count} shifts of 128 bits, 4 MiB", shifts, STEP, two, 600
    yield f"a chain of {part_count} halves that change places, 4 MiB", parts, STEP, two, 600
    yield "a term nested as deep as JSON goes, one step", nested_terms(121), STEP, 1.0, 400
    yield "2^5000 leaves in 5,000 definitions: sums of 128 bits", doubled_definitions(5000, "add"), STEP, 1.0, 100
    yield "2^5000 leaves in 5,000 definitions: products of 128 bits", doubled_definitions(5000, "mul"), STEP, 1.0, 100
    # Memories.
    yield f"a chain of {load_count} loads at what was loaded, 4 MiB", loads, STEP, two, 600
    yield f"a chain of {choice_count} choices of stores, 4 MiB", choices, STEP, two, 600
    yield "1,000 memories of 65,536 bits, a word stored in each", one_word_each(1000), STEP, two, 600
    yield "a memory of 65,536 words of 128 bits, 1,000 steps that store", one_memory(16, 128), "".join(f"in a={k}\n" for k in range(1000)), two, 600
    yield "a memory of 65,536 words, all set by the script", one_memory(16, 8), f"state {words}\nin a=0\n", two, 600
    # Children.
    yield "a child of 4,096 steps in a child of 4,096 steps", nested_children(4096), STEP, 10.0, 100
    yield "256 steps in 256 steps in 256 steps", three_levels(256, 256, 256), STEP, 10.0, 100
    yield "a child of 4,096 steps with 50,000 private states", privates, STEP, two, 600
    yield "a child of 4,096 steps beside 50,000 definitions that nothing reads", child_beside_definitions(50_000, 4096), STEP, two, 600
    yield "a child that does not end in 4,096 steps, 1,000 times", endless_child(4096), STEP * 1000, 10.0, 100
    # Scripts.
    yield f"a script of 4 MiB on the counter: {LIMIT // 8} steps", counter(), "in op=1\n" * (LIMIT // 8), 1.0, 400
    yield "a script of 4 MiB of comments", counter(), "# in op\n" * (LIMIT // 8), 1.0, 400
    yield "a script of 4 MiB of empty lines", counter(), "\n" * LIMIT, 1.0, 400
    yield "a script of one comment of 4 MiB", counter(), "#" + "a" * (LIMIT - 1), 1.0, 400
    yield "a script of one line of blanks", counter(), " " * LIMIT, 1.0, 400
    yield "a value with 4 MiB of leading zeros", counter(), "in op=0x" + "0" * (LIMIT - 10) + "1\n", 1.0, 400
    yield "a line that sets one input 500,000 times", counter(), "in" + " op=1" * 500_000 + "\n", 1.0, 400
    yield "1,000 states and 4,000 steps: each line of the output has all", many_states(1000), STEP * 4000, two, 600
    # Refused.
    yield "100,000 states, and the last term names none", last_is_unknown(100_000), STEP, two, 600
    yield "100,000 states of one name", one_name(100_000), STEP, two, 600
    yield "one key 300,000 times over", one_key(300_000), STEP, two, 600
    yield "350,000 unknown keys", unknown_keys(350_000), STEP, two, 600
    yield "1,300,000 empty lists under an unknown key", unknown_lists(1_300_000), STEP, two, 600
    yield "2,000,000 lists in one another", deep_lists(2_000_000), STEP, two, 600
    yield "a name of 4 MiB", long_text(LIMIT - 80), STEP, two, 600
    yield "a number of 4 MiB", long_number(LIMIT - 100), STEP, two, 600
    yield "4 MiB of opening brackets", "[" * LIMIT, STEP, two, 600
