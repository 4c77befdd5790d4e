#!/usr/bin/env python3
"""Runs the commands of README as a newcomer would, in an empty folder, and fails where one fails or tells something else.

    readme.py PROGRAM [DOCUMENT..]

Blocks of Markdown that begin with ```sh are run, in their order and in one folder, where `afsbackup` is PROGRAM; those of `make`, and
of an AFS cell (that begin with `vos`), are passed over. A block ```text behind one is what that must have told. There a
word of one capital letter stands for a number, the same one throughout: N, M. Between two blocks a newcomer takes a few seconds, and so
does this. A refused line fails a block, since nothing in README is to be refused. The status is 0 where all went as it is written."""
import os
import re
import shutil
import subprocess
import sys
import tempfile
import time

TOP = os.path.dirname(os.path.dirname(os.path.dirname(os.path.abspath(__file__))))


def blocks(path):
    """(number of the line, kind, text) of each block."""
    found, kind, begun, lines = [], None, 0, []
    with open(path, encoding="utf-8") as source:
        for number, line in enumerate(source, 1):
            if kind is None and line.startswith("```"):
                kind, begun, lines = line[3:].strip(), number, []
            elif kind is not None and line.startswith("```"):
                found.append((begun, kind, "".join(lines)))
                kind = None
            elif kind is not None:
                lines.append(line)
    return found


def is_other(text):
    """Commands that aren't of this program's folder."""
    first = text.split("\n")[0].split()
    return not first or first[0] in ("make", "vos", "nightly.sh", "restore.sh", "afsbackup")


def pattern(text, known):
    """The told lines as a pattern. A capital letter is a number, which is known from its first place on."""
    out = []
    for word in re.split(r"(\s+)", text):
        if re.fullmatch(r"[A-Z]", word):
            if word in known:
                out.append(re.escape(known[word]))
            elif "(?P<%s>" % word in "".join(out):
                out.append("(?P=%s)" % word)
            else:
                out.append("(?P<%s>[0-9]+)" % word)
        else:
            out.append(re.escape(word))
    return "".join(out)


def try_document(path, program):
    faults = ran = 0
    folder = tempfile.mkdtemp(prefix="readme-")
    os.symlink(program, os.path.join(folder, "afsbackup"))
    told, known = None, {}
    for number, kind, text in blocks(path):
        where = "%s:%d" % (os.path.relpath(path, TOP), number)
        if kind == "sh" and not is_other(text):
            if ran:
                time.sleep(2)
            done = subprocess.run(["bash", "-e", "-c", text], cwd=folder, stdout=subprocess.PIPE, stderr=subprocess.STDOUT, timeout=120)
            told, ran = done.stdout.decode(), ran + 1
            if done.returncode or re.search(r"(?m)^refused", told):
                print("%s: status %d, and it tells\n%s" % (where, done.returncode, told))
                faults += 1
        elif kind == "text" and told is not None:
            match = re.fullmatch(pattern(text, known), told)
            if match:
                known.update({name: value for name, value in match.groupdict().items()})
            else:
                print("%s: README has\n%sand it tells\n%s" % (where, text, told))
                faults += 1
            told = None
    shutil.rmtree(folder)
    print("%s: %d blocks run, %d faults" % (os.path.relpath(path, TOP), ran, faults))
    return faults or not ran


def main():
    if len(sys.argv) < 2 or not os.access(sys.argv[1], os.X_OK):
        print("usage: readme.py PROGRAM [DOCUMENT..]", file=sys.stderr)
        return 2
    program = os.path.realpath(sys.argv[1])
    documents = sys.argv[2:] or [os.path.join(TOP, "README.md")]
    return 1 if sum(try_document(os.path.realpath(path), program) for path in documents) else 0


sys.exit(main())
