"""Edits that turn the meaning of a function, and where in a crate they stand."""
import os
import re
from dataclasses import dataclass

import crate_list

TOP = os.path.realpath(os.path.join(os.path.dirname(os.path.abspath(__file__)), ".."))
FUNCTION = re.compile(r"^( *)(?:pub(?:\([a-z]+\))? )?(const )?(?:ghost )?(?:unsafe )?fn ([a-z_0-9]+)", re.M)


def crates():
    return list(crate_list.named())


def edits_of(name):
    found = []
    for part in ("must-fail", "wrong"):
        folder = os.path.join(TOP, "crates", name, part)
        if os.path.isdir(folder):
            found += [os.path.join(folder, it) for it in os.listdir(folder) if it.endswith(".edit")]
    return sorted(found, key=os.path.basename)


def above_of(edit):
    with open(edit, encoding="utf8") as text:
        return [line[len("above: ") :].strip() for line in text if line.startswith("above: ")]


def read(path):
    with open(path, encoding="utf8") as text:
        return text.read()


def write(path, text):
    """Writes a file whole or not at all."""
    with open(f"{path}.new", "w", encoding="utf8") as out:
        out.write(text)
    os.replace(f"{path}.new", path)


def hunks_of(edit):
    """The hunks of an edit: a file, the text that stands there, and the text for it."""
    found, path, old = [], None, None
    for line in read(edit).split("\n"):
        if line.startswith("file: "):
            path = line[len("file: ") :].strip()
        elif line.startswith("old: "):
            old = line[len("old: ") :]
        elif line.startswith("new:"):
            found.append((path, old, line[len("new:") :].removeprefix(" ")))
    return found


@dataclass(frozen=True)
class Function:
    """A function of a source file: its path in the crate, and where it begins, where its body does, and where it ends."""

    path: str
    name: str
    file: str
    start: int
    body: int
    end: int
    cycle: str | None
    constant: bool

    def has_proof_file(self, file):
        """Whether a file is of its proof, which is that of its cycle of calls if it is in one, or of that of a closure in it."""
        *above, last = ["proofs", *self.path.split("::")]
        here, (room, kind) = "/".join(above), os.path.split(os.path.dirname(file))
        if self.cycle:
            own = kind == f"+{self.cycle}" and f"{here}/".startswith(f"{room}/")
        else:
            own = kind in (last, f"+{last}") and room == here
        return own or file.startswith(f"{here}/fn/{last}/")


def owner_of(head, indent):
    """The type (with its trait) or the trait whose block a function stands in, as paths name it: a list of one word, or of none."""
    if not indent:
        return []
    opened = re.findall(r"^(?!where)[a-z].*", head, re.M)
    trait = re.match(r"(?:pub(?:\([a-z]+\))? )?trait ([A-Za-z_0-9]+)", opened[-1]) if opened else None
    if trait:
        return [trait[1]]
    impl = re.match(r"(?:unsafe )?impl(?:<[^{]*?>)? (?:([A-Za-z_:]+)(?:<([^{]*?)>)? for )?([A-Z][A-Za-z_0-9]*)", opened[-1]) if opened else None
    if not impl:
        return None
    argument = re.match(r"[A-Z][A-Za-z_0-9]*", impl[2] or "")
    return [f"{impl[3]}{(impl[1] or '').split(':')[-1]}{argument[0] if argument else ''}"]


def cycle_of(head):
    """The cycle of calls that the attributes at the end of the text name."""
    for line in reversed(head.split("\n")[:-1]):
        if not line.strip() or line[-1] in "{};":
            return None
        named = re.match(r" *#\[cycle\((\w+)\)\]", line)
        if named:
            return named[1]
    return None


def module_of(file):
    return [it for it in file.removeprefix("src/").removesuffix(".rt").split("/") if it not in ("lib", "main", "mod")]


def functions_of(text, file, modules):
    """The functions with a body of a source file, laid out as `rt fmt` does: a body's braces stand as far in as its `fn` does.

    The methods of a type have the path of the module that declares the type, which `modules` tells.
    """
    heads = list(FUNCTION.finditer(text))
    found = []
    for head, after in zip(heads, [*heads[1:], None]):
        opens = re.compile(rf"^{head[1]}(?! ).*?\{{(?=\}}?$)", re.M).search(text, head.start())
        if not opens or after and after.start() < opens.end():
            continue
        closes = re.compile(r"\}" if text[opens.end()] == "}" else rf"^{head[1]}\}}$", re.M).search(text, opens.end())
        owner = owner_of(text[: head.start()], head[1])
        if closes and owner is not None:
            kind = next((it for it in modules if owner and owner[0].startswith(it)), None)
            path = "::".join([*modules.get(kind, module_of(file)), *owner, head[3]])
            found.append(Function(path, head[3], file, head.start(), opens.end(), closes.end(), cycle_of(text[: head.start()]), bool(head[2])))
    return found


def functions_in(room):
    """The functions of a crate or of a copy of it."""
    paths = sorted(os.path.join(at, it) for at, _, names in os.walk(os.path.join(room, "src")) for it in names if it.endswith(".rt"))
    texts = {os.path.relpath(it, room): read(it) for it in paths}
    declared = r"^(?:pub(?:\([a-z]+\))? )?(?:struct|enum) ([A-Za-z_0-9]+)"
    modules = {kind: module_of(file) for file, text in texts.items() for kind in re.findall(declared, text, re.M)}
    modules = dict(sorted(modules.items(), key=lambda it: -len(it[0])))
    return [it for file, text in texts.items() for it in functions_of(text, file, modules)]


@dataclass(frozen=True)
class Place:
    """What an edit touches: a file, the function there (or None), and whether other functions can see the change."""

    file: str
    at: int
    function: Function | None
    seen: bool


def place_of(room, file, old):
    at = read(os.path.join(room, file)).index(old)
    around = [it for it in functions_in(room) if it.file == file and it.start <= at and at + len(old) <= it.end]
    inner = max(around, key=lambda it: it.start, default=None)
    hidden = len(around) == 1 and inner.body <= at and at + len(old) < inner.end and not inner.constant
    return Place(file, at, inner, not hidden)


def apply(room, edit):
    """Applies an edit in a copy: the places that it touches, or None where it does not fit."""
    places = []
    for file, old, new in hunks_of(edit):
        path = os.path.join(room, file)
        was = read(path) if os.path.exists(path) else ""
        if was.count(old) != 1 or old == new:
            return None
        places.append(place_of(room, file, old))
        write(path, was.replace(old, new))
    return places
