#!/usr/bin/env python3
"""Prints docs/DEFINITIONS.md: the definitions that contracts cite, with their comments, crate by crate in the order of crates.txt.
make_definitions.py CRATE.. prints those of these crates alone.

Where a definition has no comment of its own, the sentence that docs/definitions.txt has for it is taken, a line
`CRATE MODULE WORD..: SENTENCE` each. It goes there once the comment stands at the definition. Lines there that name no definition, or
one with a comment, are told on standard error."""
import os
import sys

sys.dont_write_bytecode = True
from source import TOP, definitions, lines_of, rooms, wrapped


def sentences():
    """By crate, module and word: the words that have a sentence together, and the sentence."""
    found = {}
    if os.path.exists(os.path.join(TOP, "docs", "definitions.txt")):
        for line in lines_of("docs/definitions.txt"):
            if line.strip() and not line.startswith("#"):
                key, _, said = line.partition(": ")
                crate, module, *words = key.split()
                for word in words:
                    found[crate, module, word] = (words, said.strip())
    return found


def told(words, comment):
    names = ", ".join("`%s`" % word for word in words)
    return "\n".join(wrapped("- %s: %s" % (names, comment) if comment else "- " + names, "", "  "))


wanted = sys.argv[1:]
instead = sentences()
used = set()
total = bare = 0
print("""# Definitions

Made by `make docs` from the comments in `crates/*/specs/*.antt`: edit those. These are the words
that the contracts of public calls rest on, each in the file `crates/CRATE/specs/MODULE.antt`.
Crates stand in the order of `crates.txt`, modules in the order in which they are read. `rt lemma
WORD` shows a word's own text. A word without a sentence is explained by its text, or by those
around it. Bytes, sizes and limits are in [FORMATS.md](FORMATS.md).""")
for room in rooms():
    for crate, _ in room.crates:
        if wanted and crate not in wanted:
            continue
        modules = definitions(crate)
        if not modules:
            continue
        print("\n## %s" % crate)
        for module, said, words in modules:
            print("\n### %s: %s\n" % (crate, module))
            if said:
                print("\n".join(wrapped(said)))
                print()
            uncommented = [word for word, comment in words if not comment]
            plain = []
            for word, comment in words:
                total += 1
                key = (crate, module, word)
                if comment:
                    print(told([word], comment))
                elif key not in instead:
                    bare += 1
                    plain.append(word)
                elif key not in used:
                    group, sentence = instead[key]
                    group = [other for other in group if other in uncommented]
                    used |= {(crate, module, other) for other in group}
                    print(told(group, sentence))
            if plain:
                print(told(plain, ""))
if not wanted:
    print("make_definitions.py: %d definitions, %d without a sentence" % (total, bare), file=sys.stderr)
    for key in sorted(set(instead) - used):
        print("docs/definitions.txt: %s: not needed, there is a comment or no such definition" % " ".join(key), file=sys.stderr)
