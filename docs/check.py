#!/usr/bin/env python3
"""Checks the documents, and ends with status 1 where something is told: that the made ones are as their makers make them; lines of at
most 100 characters and table cells of at most 40 words; README's length, and its row for each crate; that what PROMISES and README
name is there; that links and paths lead somewhere."""
import glob
import os
import re
import subprocess
import sys

sys.dont_write_bytecode = True
from source import DEFINED, TOP, crates, lines_of, rooms

MADE = {"docs/CRATES.md": "docs/make_crates.py", "docs/DEFINITIONS.md": "docs/make_definitions.py"}
PROSE = ["README.md", "CHANGES.md", "docs/COMMANDS.md", "docs/CELL.md", "docs/DESIGN.md", "docs/FORMATS.md", "docs/PROMISES.md",
         "docs/DECISIONS.md", "bench/README.md", "man/afsbackup.8"]
# sections that other programs make
LOOSE = {"docs/DESIGN.md": "The gate's minutes"}

faults = []


def fault(path, line, text):
    faults.append("%s:%d: %s" % (path, line, text))


def stale():
    for path, maker in MADE.items():
        told = subprocess.run([sys.executable, os.path.join(TOP, maker)], stdout=subprocess.PIPE, stderr=subprocess.DEVNULL, check=True).stdout
        with open(os.path.join(TOP, path), "rb") as there:
            if there.read() != told:
                fault(path, 1, "is stale: make docs")


def documents():
    found = [os.path.relpath(path, TOP) for path in glob.glob(os.path.join(TOP, "docs", "*.md"))]
    return sorted(found) + [path for path in ("README.md", "CHANGES.md", "bench/README.md") if os.path.exists(os.path.join(TOP, path))]


def cells(line):
    return [cell.strip() for cell in re.split(r"(?<!\\)\|", line.strip().strip("|"))]


def widths(path):
    heading, code = "", False
    for number, line in enumerate(lines_of(path), 1):
        if line.startswith("```"):
            code = not code
        if line.startswith("#") and not code:
            heading = line.lstrip("# ")
        if LOOSE.get(path) == heading:
            continue
        if line.startswith("|") and not code:
            for cell in cells(line):
                if len(cell.split()) > 40:
                    fault(path, number, "a cell has %d words: %s .." % (len(cell.split()), cell[:40]))
            if path == "README.md" and len(line) > 100:
                fault(path, number, "the line has %d characters" % len(line))
        elif len(line) > 100:
            fault(path, number, "the line has %d characters" % len(line))


def prose(path):
    for number, line in enumerate(lines_of(path), 1):
        for words in ("but for", "of which it is said", "of it is said"):
            if words in line.lower():
                fault(path, number, "says '%s'" % words)


def text_of(crate):
    files = glob.glob(os.path.join(TOP, "crates", crate, "src", "**", "*.rt"), recursive=True)
    return "\n".join(open(path, encoding="utf-8").read() for path in files)


def is_yard(title, crate):
    if title:
        return title.upper().startswith("YARD")
    return re.search(r"_(rows|bench|probe|callers|status|table|tests)$", crate) is not None


def readme():
    rows = lines_of("README.md")
    if len(rows) - 1 > 260:
        fault("README.md", len(rows), "has %d lines" % (len(rows) - 1))
    told = {}
    for number, line in enumerate(rows, 1):
        m = re.match(r"\| (\d+) \| `(\w+)` \| (.*) \|$", line)
        if not m:
            continue
        told[m[2]] = number
        if m[2] not in crates():
            fault("README.md", number, "no crate %s" % m[2])
            continue
        if len(m[3].split()) > 25:
            fault("README.md", number, "a row has %d words" % len(m[3].split()))
        text = text_of(m[2])
        for name in re.findall(r"`([\w:]+)`", m[3]):
            for part in name.split("::"):
                if part != "tapeconfig" and not re.search(r"\b%s\b" % part, text):
                    fault("README.md", number, "%s has no %s" % (m[2], name))
    for at, room in enumerate(rooms(), 1):
        for crate, _ in room.crates:
            if is_yard(room.title, crate):
                continue
            if crate not in told:
                fault("README.md", 1, "no row of the crate %s" % crate)
            elif room.title and not rows[told[crate] - 1].startswith("| %d |" % at):
                fault("README.md", told[crate], "%s is in room %d" % (crate, at))


def picture():
    """DESIGN's picture of the rooms names each crate outside the yard, and nothing else."""
    text = "\n".join(lines_of("docs/DESIGN.md"))
    begin = text.index("```text")
    drawn = text[begin:text.index("```", begin + 3)]
    for room in rooms():
        for crate, _ in room.crates:
            if not is_yard(room.title, crate) and not re.search(r"\b%s\b" % crate, drawn):
                fault("docs/DESIGN.md", 1, "the picture of the rooms has no %s" % crate)
    for name in re.findall(r"\b[a-z]+_[a-z_]+\b", drawn):
        if name not in crates():
            fault("docs/DESIGN.md", 1, "the picture of the rooms has %s, which is no crate" % name)


def places():
    """The files that DESIGN names in 'Where to change what' are those of a crate in the same row."""
    heading = ""
    for number, line in enumerate(lines_of("docs/DESIGN.md"), 1):
        if line.startswith("## "):
            heading = line[3:]
        if heading != "Where to change what" or not line.startswith("|"):
            continue
        named = [name for name in re.findall(r"`(\w+)`", line) if name in crates()]
        for file in re.findall(r"`((?:specs/)?\w+\.(?:rt|antt))`", line):
            inner = file if file.endswith(".antt") else "src/" + file
            if not any(os.path.exists(os.path.join(TOP, "crates", name, inner)) for name in named):
                fault("docs/DESIGN.md", number, "no crate of the row has %s" % file)


def names_there():
    """Whatever is defined: in specs, as a call, a type, a clause or an edit."""
    there = set(crates())
    for path in glob.glob(os.path.join(TOP, "crates", "*", "specs", "**", "*.antt"), recursive=True):
        there.add(os.path.basename(path)[:-5])
        for line in open(path, encoding="utf-8"):
            m = DEFINED.match(line) or re.match(r"^\s+(?:pub )?(\w+) :", line) or re.match(r"^(?:data|record|abbrev) (?:pub )?(\w+)", line)
            if m:
                there.add(m[1])
    for path in glob.glob(os.path.join(TOP, "crates", "*", "src", "**", "*.rt"), recursive=True):
        text = open(path, encoding="utf-8").read()
        there |= set(re.findall(r"\b(?:fn|struct|enum|trait|type|ensures|requires|ghost|const) (\w+)", text))
        there |= set(re.findall(r"(?m)^    ([A-Z]\w*)(?: \{|\(|,)", text))
    for path in glob.glob(os.path.join(TOP, "crates", "*", "must-fail", "*.edit")):
        there.add(os.path.basename(path)[:-5])
    return there


COMMANDS = set("""labeltape scantape dumpinfo volinfo deletedump checkpoint vos dump volrestore diskrestore volsetrestore refused quit
tapeconfig examine rehearse run main savedb restoredb dbverify Ok Err log tapes ensures requires""".split())


def promises():
    there = names_there() | COMMANDS
    for number, line in enumerate(lines_of("docs/PROMISES.md"), 1):
        for name in re.findall(r"`([A-Za-z_][\w.:]*)`", line):
            for part in re.split(r"::|\.", name):
                if part and part not in there:
                    fault("docs/PROMISES.md", number, "nothing is named %s" % name)


def paths(path):
    here = os.path.dirname(path)
    for number, line in enumerate(lines_of(path), 1):
        for link in re.findall(r"\]\(([^)#]+)\)", line):
            if "://" not in link and not os.path.exists(os.path.join(TOP, here, link)):
                fault(path, number, "no file %s" % link)
        for named in re.findall(r"`((?:docs|bench|examples|man)/[\w./-]+)`", line):
            if not os.path.exists(os.path.join(TOP, named)):
                fault(path, number, "no file %s" % named)


stale()
for each in documents():
    widths(each)
    paths(each)
for each in PROSE:
    if os.path.exists(os.path.join(TOP, each)):
        prose(each)
readme()
picture()
places()
promises()
for each in faults:
    print(each)
print("%d documents, %d faults" % (len(documents()), len(faults)))
sys.exit(1 if faults else 0)
