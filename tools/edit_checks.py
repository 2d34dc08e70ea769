"""Checks of a copy of a crate with edits, and what they say of each edit."""
import os
import re
import shutil
import subprocess
import sys
import tempfile
import threading
from dataclasses import dataclass

import crate_list
from edits import TOP, above_of, apply, functions_in, read

KIT = "/opt/rattle"
PARTS = ("src", "specs", "proofs")
MOST_USERS = 6  # functions that are asked about an edit of what they see
LIMITS = re.compile(r"antt ran out of (stack|the (steps|memory) that the check of one declaration)|(outgrew the memory limit|stopped at the step limit) \(")
WORDING = re.compile(r"(note: )?(\./)?proofs/.*(has no field|is not in scope|has no `|was not admitted)")
ITEM = re.compile(r"^ *(?:pub(?:\([a-z]+\))? )?(?:const |ghost |unsafe )*(?:fn|const|static|struct|enum|trait|type) ([A-Za-z_0-9]+)", re.M)
DEFINITION = re.compile(r"^(?:(?:pub|abbrev|record|data|unfoldable|instance) )*(?!--|use |mod )([^\s():{}.]+)", re.M)


def copy_to(room):
    listed = subprocess.run(["git", "-C", TOP, "ls-files", "-co", "--exclude-standard"], capture_output=True, text=True, check=True)
    for name in listed.stdout.split("\n"):
        if name and os.path.isfile(os.path.join(TOP, name)) and "/must-fail/" not in name and "/wrong/" not in name:
            to = os.path.join(room, name)
            os.makedirs(os.path.dirname(to), exist_ok=True)
            shutil.copyfile(os.path.join(TOP, name), to)


def try_above(room, name, edit, above):
    """Applies the edit in the copy and checks the crate above, which must not be proved."""
    with open(edit, encoding="utf8") as text:
        lines = text.read().split("\n")
    path = os.path.join(room, "crates", name, lines[0][len("file: ") :].strip())
    old, new = lines[1][len("old: ") :], lines[2][len("new: ") :]
    with open(path, encoding="utf8") as it:
        was = it.read()
    if was.count(old) != 1:
        return "BAD EDIT"
    with open(path, "w", encoding="utf8") as it:
        it.write(was.replace(old, new))
    ran = subprocess.run(["rt", "check"], cwd=os.path.join(room, "crates", above), capture_output=True, text=True)
    with open(path, "w", encoding="utf8") as it:
        it.write(was)
    said = (ran.stdout + ran.stderr).strip()
    return "NOT REFUSED" if ran.returncode == 0 else "refused" if "logic=not-proved" in said else "NOT TRIED"


def libraries_of(name):
    """The words that give a check the libraries that the crate stands on."""
    words = ["--extern", f"std={KIT}/rlibs/std.rlib", "-L", f"dependency={KIT}/rlibs"]
    for it in crate_list.below()[name]:
        own = os.path.join(TOP, "crates", it, "out", "rlib", f"{it}.rlib")
        given = os.path.join(os.environ.get("RLIBS", ""), it, f"{it}.rlib")
        path = next((at for at in (given, own, f"{KIT}/rlibs/{it}.rlib") if os.path.isdir(at)), None)
        if not path:
            sys.exit(f"tools/wrong: {it} is not built: run rt ci first")
        words += ["--extern", f"{it}={path}", "-L", f"dependency={os.path.dirname(path)}"]
    return words


def check(folder, words):
    """One check of a crate's copy: its status, and the lines that it printed."""
    ran = subprocess.run([f"{KIT}/bin/rattle", "check", *words], cwd=folder, stdin=subprocess.DEVNULL, stdout=subprocess.PIPE, stderr=subprocess.STDOUT, text=True, errors="replace")
    return ran.returncode, ran.stdout.rstrip("\n").split("\n")


def is_rejected(lines):
    """Whether the front end rejects the crate, and nothing was proved."""
    return any(re.search(r"\berror\[[\w-]+\]", it) for it in lines)


def verdict_of(status, lines):
    """What a check's end says of the edit: a verdict, or None where the check proved all that it was asked for."""
    told = [it for it in lines if re.match(r"(note: )?\S+:\d+:\d+:", it)]
    told = [it for it in told if ": error" in it or it.startswith("note: ")] or told
    if is_rejected(lines):
        return "BAD EDIT"
    if status == 1 and told:
        if any(re.match(r"(\./)?(src|specs)/\S+: error: .*(is not in scope|has no field|is no name|operand is missing|expected the end|cannot continue)", it) for it in told):
            return "BAD EDIT"
        return "refused" if any(not WORDING.match(it) for it in told) else "by its proof files alone"
    if status == 0:
        return None
    return "by a limit" if status == 3 and any(LIMITS.search(it) for it in lines) else "NOT TRIED"


def copy_of(name, room):
    for part in PARTS:
        if os.path.isdir(os.path.join(TOP, "crates", name, part)):
            shutil.copytree(os.path.join(TOP, "crates", name, part), os.path.join(room, part))


def words_of(name, room):
    """The words of a check of a crate's copy."""
    root = "src/main.rt" if os.path.exists(os.path.join(room, "src", "main.rt")) else "src/lib.rt"
    words = ["--crate-name", name, root, *libraries_of(name), "--antt-project", f"{KIT}/rattle/logic/antt-project.json"]
    return [*words, "--logic-built", f"{KIT}/logic_built", "--links", f"{name}=", "--jobs", "1"]


def only(paths):
    return [word for it in sorted(set(paths)) for word in ("--only", it)]


class Kept:
    """What checks of the crates kept, in a folder for each crate. A check has a copy of it, which antt asks what is up to date there."""

    def __init__(self, folder):
        self.folder = folder
        self.proved = {}
        self.lock = threading.Lock()

    def check(self, name, room, words):
        """A check of the copy of a crate that begins with what is kept of the crate, if anything is."""
        own, kept = os.path.join(room, "kept"), os.path.join(self.folder, name)
        with self.lock:
            if os.path.isdir(kept) and not os.path.isdir(own):
                shutil.copytree(kept, own)
        return check(room, [*words_of(name, room), *words, *(["--incremental", own] if os.path.isdir(own) else [])])

    def make(self, name):
        """Checks the crate as it is, once in a run, and keeps what that check keeps: whether the crate is proved."""
        if name not in self.proved:
            with tempfile.TemporaryDirectory(prefix="wrong-") as room:
                copy_of(name, room)
                os.makedirs(os.path.join(self.folder, name), exist_ok=True)
                status, _ = self.check(name, room, [])
                with self.lock:
                    shutil.rmtree(os.path.join(self.folder, name))
                    shutil.move(os.path.join(room, "kept"), os.path.join(self.folder, name))
            self.proved[name] = status == 0
            if status:
                print(f"tools/wrong: {name} is not proved without an edit, or could not be checked", flush=True)
        return self.proved[name]


@dataclass(frozen=True)
class Task:
    """Edits of one crate that are tried in one go: a batch, or one edit, alone or (whole) on the whole crate at once."""

    name: str
    edits: tuple
    whole: bool = False


def at_line(text, line):
    """Where a line of a text begins, counted from 1."""
    return sum(len(it) + 1 for it in text.split("\n")[: line - 1])


def is_refusal(line):
    """Whether a line of a check refuses a goal or a text: its file and line, or None."""
    told = re.match(r"(note: )?(?:\./)?((?:src|specs|proofs)/\S+?):(\d+):\d+:", line)
    if not told or ("it is not proved that" if told[1] else ": error") not in line:
        return None
    return told[2], int(told[3])


def is_about(line, group, texts):
    """Whether a line of a check refuses a goal or a proof file of one of these functions, which have one proof."""
    file, at = is_refusal(line) or ("", 0)
    if file.startswith("src/"):
        return any(it.file == file and it.start <= at_line(texts[file], at) < it.end for it in group)
    return any(it.has_proof_file(file) for it in group)


def own_verdict(line, name, group):
    """What a line `fn F: ..` says of one of these functions or of a closure in it: `proved`, `not proved`, or None where it says neither.

    That it calls what is not proved says nothing of the function itself.
    """
    said = re.match(rf"fn {name}::(\S+): (.*)", line)
    path = f"::{said[1]}" if said else ""
    closure = path.replace("::fn::", "::", 1) if "::fn::" in path else ""
    if not any(path == f"::{it.path}" or closure.startswith(f"::{it.path}::") for it in group):
        return None
    head, *reasons = re.split(r"[:;] ", said[2])
    own = not reasons or any(not it.startswith("it calls ") for it in reasons)
    return "proved" if head == "proved" else "not proved" if head in ("not proved", "no proof") and own else None


def batch_verdict(status, lines, name, group, texts):
    """What a run on a batch says of the edit of one function: `refused`, `proved`, or None where it does not tell."""
    said = {own_verdict(it, name, group) for it in lines}
    about = [it for it in lines if is_about(it, group, texts)]
    if "not proved" in said:
        return "refused" if status == 1 and verdict_of(status, about) == "refused" else None
    return "proved" if not about and f"fn {name}::{group[0].path}: proved" in lines else None


def group_of(function, functions):
    """The function itself first, and those of its cycle of calls."""
    cycle = [it for it in functions if function.cycle and (it.file, it.cycle) == (function.file, function.cycle) and it.path != function.path]
    return [function, *cycle]


def try_batch(task, kept):
    """Tries edits of different functions in one run: the verdicts that it gives, and the tasks that are left."""
    alone = [Task(task.name, (it,)) for it in task.edits]
    with tempfile.TemporaryDirectory(prefix="wrong-") as room:
        copy_of(task.name, room)
        places = {it: apply(room, it) for it in task.edits}
        functions = functions_in(room)
        by_path = {it.path: it for it in functions}
        if not all(it and it[0].function and it[0].function.path in by_path for it in places.values()):
            return {}, alone
        texts = {it.file: read(os.path.join(room, it.file)) for it in functions}
        groups = {it: group_of(by_path[at[0].function.path], functions) for it, at in places.items()}
        own = [it[0].path for it in groups.values()]
        status, lines = kept.check(task.name, room, only(own))
    if is_rejected(lines):
        return {}, without_bad(task, groups, texts, lines)
    if any(is_refusal(it) and not WORDING.match(it) and not any(is_about(it, group, texts) for group in groups.values()) for it in lines):
        return {}, alone
    said = {it: batch_verdict(status, lines, task.name, groups[it], texts) for it in task.edits}
    left = [Task(task.name, (it,), whole=said[it] == "proved") for it in task.edits if said[it] != "refused"]
    return {it: "refused" for it in task.edits if said[it] == "refused"}, left


def without_bad(task, groups, texts, lines):
    """The tasks for a batch that the front end rejects: the edits that its errors stand in alone, and the others together."""
    bad = [it for it in task.edits if any(is_about(line, groups[it][:1], texts) for line in lines)]
    good = tuple(it for it in task.edits if it not in bad) if bad else ()
    return [*(Task(task.name, (it,)) for it in bad or task.edits), *([Task(task.name, good)] if good else [])]


def users_of(places, room):
    """The functions that name what an edit changes, at most so many: those that can see it."""
    names = set()
    for place in places:
        text = read(os.path.join(room, place.file))
        end = text.find("\n", place.at)
        found = (ITEM if place.file.startswith("src/") else DEFINITION).findall(text[: end if end >= 0 else len(text)])
        names |= {place.function.name} if place.function else set(found[-1:])
    word = re.compile("|".join(rf"(?<![\w-]){re.escape(it)}(?![\w-])" for it in sorted(names)) or r"(?!)")
    return [it.path for it in functions_in(room) if word.search(read(os.path.join(room, it.file))[it.start : it.end])][:MOST_USERS]


def try_alone(task, kept):
    """Tries one edit on its own functions, then on those that can see it: a verdict, or None where these say nothing."""
    name, edit = task.name, task.edits[0]
    with tempfile.TemporaryDirectory(prefix="wrong-") as room:
        copy_of(name, room)
        places = apply(room, edit)
        if places is None:
            return "BAD EDIT"
        own = {it.function.path if it.function else None for it in places}
        if None not in own:
            verdict = verdict_of(*kept.check(name, room, only(own)))
            if verdict in ("refused", "by a limit", "BAD EDIT"):
                return verdict
        users = users_of(places, room) if any(it.seen for it in places) else []
        if set(users) - own:
            status, lines = kept.check(name, room, only(users))
            stated = any(re.match(r"(\./)?specs/\S+: error", it) for it in lines)
            if is_rejected(lines) or verdict_of(status, lines) == "refused" and not stated:
                return verdict_of(status, lines)
    return None


def try_whole(task, kept):
    """Tries one edit on the whole crate, which is proved without it."""
    if not kept.make(task.name):
        return "NOT TRIED"
    with tempfile.TemporaryDirectory(prefix="wrong-") as room:
        copy_of(task.name, room)
        if apply(room, task.edits[0]) is None:
            return "BAD EDIT"
        return verdict_of(*kept.check(task.name, room, [])) or "NOT REFUSED"


def try_crate_above(task):
    with tempfile.TemporaryDirectory(prefix="wrong-") as room:
        copy_to(room)
        subprocess.run(["git", "init", "-q"], cwd=room, check=True)
        return try_above(room, task.name, task.edits[0], above_of(task.edits[0])[0])


def try_task(task, kept):
    """The verdicts that a task gives, and the tasks that are left."""
    if len(task.edits) > 1:
        return try_batch(task, kept)
    if above_of(task.edits[0]):
        verdict = try_crate_above(task)
    else:
        verdict = try_whole(task, kept) if task.whole else try_alone(task, kept)
    return ({task.edits[0]: verdict}, []) if verdict else ({}, [Task(task.name, task.edits, whole=True)])
