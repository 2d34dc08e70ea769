"""What crates.txt says: each crate with the crates and libraries of the kit that its sources name."""
import os
import re

TOP = os.path.realpath(os.path.join(os.path.dirname(os.path.abspath(__file__)), ".."))


def named(top=TOP):
    """For each crate, in the order of the file (lowest first), what its line names."""
    with open(os.path.join(top, "crates.txt"), encoding="utf8") as file:
        lines = [line.split("#")[0].split(":") for line in file]
    return {it[0].split()[0]: it[1].split() for it in lines if it[0].strip()}


def below(top=TOP):
    """For each crate, in the order of the file, all that it stands on, the kit's libraries first, then lowest first."""
    lines, found = named(top), {}
    place = {name: number for number, name in enumerate(lines)}
    for name in lines:
        all_below = {it for dep in lines[name] for it in [dep, *found.get(dep, ())]}
        found[name] = sorted(all_below, key=lambda it: (place.get(it, -1), it))
    return found
