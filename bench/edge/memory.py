#!/usr/bin/env python3
"""Tests of `afsbackup` where memory is refused: scripts in a real folder, each run with many sizes of memory, a page apart, from too
little to begin up to enough for all of it. With each of them what is told is a front of what is told with enough, the status names a
cause, and a later run with enough memory finds all that was acknowledged, and nothing but perhaps a part of one line more. The stack
isn't counted.

The first argument is the program. It works in folders of its own below the second one (else a new one)."""
import os
import re
import resource
import shutil
import subprocess
import sys

sys.dont_write_bytecode = True
from checks import PROGRAM, check, finish, folder

STEP = 4096
# What may be said, by the status: a call on the media or on the cell failed, memory was refused, also to an opening, or the output took
# no more.
CAUSES = {
    4: [b"a call on the journal or a tape failed"],
    5: [b"a call on the cell failed"],
    6: [b"memory was refused", b"cannot open\nmemory was refused"],
    9: [b"the output took no more"],
}
# The allocator asks the system for no more than it needs.
EXACT = dict(os.environ, MALLOC_TOP_PAD_="0", MALLOC_TRIM_THRESHOLD_="0")

FIRST = [
    "addhost -tapehost th -portoffset 0",
    "addvolset -name users",
    "addvolentry -name users -server .* -partition .* -volumes user\\..*",
    "adddump -dump /full",
    "adddump -dump /full/mon",
    "labeltape -name users.full.1 -slot 0",
    "vos create -server fs1 -partition vicepa -name user.a",
    "vos write -volume user.a -vnode 2 -size 100000",
    "vos backup -volume user.a",
    "dump -volumeset users -dump /full",
    "vos write -volume user.a -vnode 4 -size 70000",
    "vos backup -volume user.a",
    "dump -volumeset users -dump /full/mon",
    "dumpinfo",
    "volrestore -server fs1 -partition vicepa -volume user.a -extension .r",
    "checkpoint",
]
AGAIN = [
    "addhost -tapehost th -portoffset 0",
    "scantape -dbadd",
    "volrestore -server fs1 -partition vicepa -volume user.a",
]
LOOKS = ["listhosts", "listvolsets", "listdumps", "dumpinfo", "vos listvol"]


def masked(told):
    """What was told, without the seconds of the clock and without spaces at the ends of lines."""
    return re.sub(rb"\d{9,}", b"N", re.sub(rb"\d\d/\d\d/\d{4} \d\d:\d\d", b"D", told))


def blank():
    place = folder()
    os.mkdir(os.path.join(place, "media"))
    for slot in range(3):
        open(os.path.join(place, "media", "slot%d" % slot), "wb").close()
    with open(os.path.join(place, "tapeconfig"), "w") as out:
        out.write("slots:0-2 0\n")
    return place


def lost():
    """A folder whose journal and volumes are lost behind the first script."""
    place = blank()
    run(place, FIRST)
    os.remove(os.path.join(place, "media", "journal"))
    shutil.rmtree(os.path.join(place, "cell"))
    return place


def run(place, lines, size=None, words=("run",)):
    def limit():
        if size is not None:
            resource.setrlimit(resource.RLIMIT_DATA, (size, size))

    text = "".join(line + "\n" for line in lines).encode()
    return subprocess.run([PROGRAM, *words], cwd=place, env=EXACT, input=text, capture_output=True, timeout=300, preexec_fn=limit)


def replies(told):
    return sum(1 for line in told.split(b"\n")[:-1] if line == b"ok" or line.startswith(b"refused "))


def looks(place):
    """What a later run finds, as lines; those of a volume's size and of a dump are alike in every run but for the clock."""
    done = run(place, LOOKS)
    check("a later run opens", done.returncode == 0, done)
    return sorted(masked(done.stdout).split(b"\n"))


def within(part, whole):
    rest = list(whole)
    for line in part:
        if line not in rest:
            return False
        rest.remove(line)
    return True


def begins(place):
    """The least memory with which the program begins."""
    size = STEP
    while run(place, [], size, ("examine",)).returncode < 0 or run(place, [], size, ("examine",)).returncode == 127:
        size += STEP
    return size


def sizes(name, make, lines):
    """Runs a script with each size of memory up to enough for it."""
    whole = run(make(), lines)
    check(name + ": with enough memory", whole.returncode == 0 and replies(whole.stdout) == len(lines), whole)
    told = masked(whole.stdout)
    fronts = []
    for count in range(len(lines) + 1):
        place = make()
        run(place, lines[:count])
        fronts.append(looks(place))
        shutil.rmtree(place)
    tried, statuses, size = 0, {}, begins(make())
    while True:
        place = make()
        done = run(place, lines, size)
        where = "%s: %d bytes" % (name, size)
        names = any(done.stderr.startswith(cause + b"\n") for cause in CAUSES.get(done.returncode, []))
        check(where + ": the status names a cause", done.returncode == 0 or names, done)
        check(where + ": a front is told", told.startswith(masked(done.stdout)), done)
        at = replies(done.stdout)
        found = looks(place)
        after = fronts[min(at + 1, len(lines))]
        check(where + ": all that was acknowledged is found", found in (fronts[at], after) or (within(fronts[at], found) and within(found, after)), (at, found))
        added = done.stdout.count(b"added ")
        check(where + ": each dump that was told as added is listed", sum(1 for line in found if line.startswith(b"dump ")) >= added, found)
        shutil.rmtree(place)
        tried += 1
        statuses[done.returncode] = statuses.get(done.returncode, 0) + 1
        if done.returncode == 0:
            break
        size += STEP
    print("%s: %d sizes up to %d bytes, by status %s" % (name, tried, size, dict(sorted(statuses.items()))))


def rehearsals():
    place = folder()
    whole = run(place, [], None, ("rehearse", "3"))
    check("rehearse: with enough memory", whole.returncode == 0, whole)
    size, tried = begins(place), 0
    while True:
        done = run(place, [], size, ("rehearse", "3"))
        tried += 1
        if done.returncode == 0:
            check("rehearse: enough memory tells all of it", done.stdout == whole.stdout, done)
            break
        check("rehearse: %d bytes" % size, done.returncode == 6 and done.stdout == b"" and done.stderr.startswith(CAUSES[6][0]), done)
        size += STEP
    print("rehearse: %d sizes up to %d bytes" % (tried, size))
    done = run(place, [], 64 * 1024 * 1024, ("rehearse", "200"))
    check("rehearse: 200 volumes in 64 MiB", done.returncode == 6 and done.stdout == b"" and done.stderr.startswith(CAUSES[6][0]), done)


if __name__ == "__main__":
    sizes("dumps", blank, FIRST)
    sizes("scans", lost, AGAIN)
    rehearsals()
    finish()
