#!/usr/bin/env python3
"""Prints docs/CRATES.md: each crate of crates.txt, room by room, with its head, what it stands on, and what it hands out."""
import sys

sys.dont_write_bytecode = True
from source import crates, exports, head, items, rooms, wrapped


def nearest(below, deps):
    """Those of `below` that no other of them stands on."""
    seen = {}

    def under(name):
        if name not in seen:
            seen[name] = set()
            for dep in deps.get(name, []):
                if dep in deps:
                    seen[name] |= {dep} | under(dep)
        return seen[name]

    own = [name for name in below if name in deps]
    return [name for name in own if not any(name in under(other) for other in own if other != name)]


def handed_out(crate):
    out = []
    read = {}
    for module, name in exports(crate):
        if module not in read:
            read[module] = items(crate, module)
        named, calls = read[module]
        said = named.get(name, "")
        out += wrapped("- `%s`%s" % (name, ": " + said if said else ""), "", "  ")
        for call, what in calls.get(name, []):
            out += wrapped("- `%s::%s`%s" % (name, call, ": " + what if what else ""), "  ", "    ")
    return out


deps = crates()
print("""# Crates

Made by `make docs` from `crates.txt`, the head of each crate and the comments at what it hands out:
edit those. Rooms stand from the lowest to the highest. A crate stands on crates of its own room and
of the rooms before it; only the nearest of them are named, and the kit's after a semicolon. What a
call promises is its contract, in the crate's `src/`.""")
for number, room in enumerate(rooms(), 1):
    name, _, purpose = room.title.partition(": ")
    print("\n## %d. %s" % (number, name) if name else "\n## Crates")
    if purpose:
        print("\n" + "\n".join(wrapped(purpose[:1].upper() + purpose[1:] + ".")))
    for name, below in room.crates:
        near = nearest(below, deps)
        kit = [dep for dep in below if dep not in deps]
        on = ", ".join("`%s`" % dep for dep in near) or "no other crate"
        if kit:
            on += "; " + ", ".join("`%s`" % dep for dep in kit)
        print("\n### %s\n" % name)
        print("\n".join(wrapped(head(name))))
        print()
        print("\n".join(wrapped("Stands on %s." % on)))
        given = handed_out(name)
        if given:
            print()
            print("\n".join(given))
