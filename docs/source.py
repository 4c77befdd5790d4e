"""What the makers of documents read: crates.txt with its rooms, heads of crates, their calls, and definitions with their comments."""
import os
import re
import textwrap

TOP = os.path.dirname(os.path.dirname(os.path.abspath(__file__)))
WIDTH = 100


def lines_of(path):
    with open(os.path.join(TOP, path), encoding="utf-8") as source:
        return source.read().split("\n")


def wrapped(text, lead="", rest=""):
    return textwrap.wrap(text, WIDTH, initial_indent=lead, subsequent_indent=rest, break_long_words=False, break_on_hyphens=False)


class Room:
    """Crates that follow a comment of crates.txt. `crates` are pairs of a name and what it stands on."""

    def __init__(self, title):
        self.title, self.crates = title, []


def rooms():
    """The rooms of crates.txt, in its order. A comment, of one line or more, begins a room; the first of all is the file's own head
    where it has no crate behind it."""
    found, comment = [], []
    for line in lines_of("crates.txt"):
        if line.startswith("#"):
            comment.append(line.strip("#- \t"))
            continue
        row = line.partition("#")[0].strip()
        if not row:
            if comment and not found:
                comment = []
            continue
        if comment or not found:
            found.append(Room(" ".join(part for part in comment if part)))
            comment = []
        name, _, below = row.partition(":")
        found[-1].crates.append((name.strip(), below.split()))
    return found


def crates():
    return {name: below for room in rooms() for name, below in room.crates}


def root_file(crate):
    for name in ("lib.rt", "main.rt"):
        path = "crates/%s/src/%s" % (crate, name)
        if os.path.exists(os.path.join(TOP, path)):
            return path
    return None


def head(crate):
    """The first paragraph of what the crate's root file says of it."""
    said, path = [], root_file(crate)
    for line in lines_of(path) if path else []:
        if not line.startswith("//!"):
            break
        if line.strip() == "//!":
            break
        said.append(line[3:].strip())
    return " ".join(said)


def exports(crate):
    """What the root file hands out: pairs of a module and a name. Names of other crates are left out."""
    path = root_file(crate)
    text = "\n".join(lines_of(path)) if path else ""
    found = []
    modules = set(re.findall(r"(?m)^(?:pub )?mod (\w+);", text))
    for use in re.findall(r"(?m)^pub use ([^;]*);", text):
        use = " ".join(use.split())
        m = re.match(r"(\w+)::\{(.*)\}$", use) or re.match(r"(\w+)::(\w+)$", use)
        if m and m[1] in modules:
            found += [(m[1], name.strip()) for name in m[2].split(",") if name.strip()]
    return found


def first_sentence(said):
    text = " ".join(said)
    m = re.match(r"(.*?[.])(?: |$)", text)
    return m[1] if m else text


def items(crate, module):
    """The public items of a module, each with the first sentence of its comment: by name, and calls by type."""
    path = "crates/%s/src/%s.rt" % (crate, module)
    if not os.path.exists(os.path.join(TOP, path)):
        return {}, {}
    named, calls, said, owner, is_trait = {}, {}, [], None, False
    for line in lines_of(path):
        text = line.strip()
        if text.startswith("///"):
            said.append(text[3:].strip())
            continue
        if text.startswith("#["):
            continue
        if line.startswith("}"):
            owner = None
        m = re.match(r"(pub trait|impl)\b(?:<[^{]*?>)? *(?:([\w:]+)(?:<[^{]*?>)? for )?(\w+)", line)
        if m:
            is_trait = m[1] == "pub trait"
            owner = None if m[2] else m[3]
        m = re.match(r"(\s*)(pub )?(fn|struct|enum|trait|type|const) (\w+)", line)
        if m and m[2] and not m[1]:
            named[m[4]] = first_sentence(said)
        elif m and m[1] == "    " and m[3] == "fn" and owner and (m[2] or is_trait):
            calls.setdefault(owner, []).append((m[4], first_sentence(said)))
        said = []
    return named, calls


DEFINED = re.compile(r"^(?:abbrev pub|unfoldable pub|pub record|pub data) (\w+)")


def definitions(crate):
    """The crate's definitions, by modules in the order of specs/Lib.antt: (module, its head, [(word, its comment)])."""
    folder = "crates/%s/specs" % crate
    if not os.path.exists(os.path.join(TOP, folder, "Lib.antt")):
        return []
    found = []
    for module in re.findall(r"(?m)^pub mod (\w+)", "\n".join(lines_of(folder + "/Lib.antt"))):
        path = "%s/%s.antt" % (folder, module)
        if not os.path.exists(os.path.join(TOP, path)):
            continue
        rows = lines_of(path)
        said = []
        for row in rows:
            if not row.startswith("--"):
                break
            said.append(row.lstrip("- "))
        words = []
        for at, row in enumerate(rows):
            m = DEFINED.match(row)
            if m:
                above, up = [], at - 1
                while up >= 0 and rows[up].startswith("--") and not rows[up].startswith("-- ----"):
                    above.insert(0, rows[up].lstrip("- "))
                    up -= 1
                words.append((m[1], " ".join(above)))
        found.append((module, " ".join(said), words))
    return found
