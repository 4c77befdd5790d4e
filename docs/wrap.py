#!/usr/bin/env python3
"""Wraps the paragraphs and list items of documents at 100 columns, for whoever edits them. Tables, code, headings and quotes stay.

    docs/wrap.py FILE.."""
import re
import sys

sys.dont_write_bytecode = True
from source import wrapped

ITEM = re.compile(r"(\s*)(?:[-*]|\d+\.) ")


def wrap(text):
    out, block, code = [], [], False

    def flush():
        if block:
            lead = ITEM.match(block[0])
            lead = lead.group(0) if lead else re.match(r"\s*", block[0]).group(0)
            body = " ".join([block[0][len(lead):].strip()] + [line.strip() for line in block[1:]])
            out.extend(wrapped(body, lead, " " * len(lead)))
            block.clear()

    for line in text.split("\n"):
        if line.lstrip().startswith("```"):
            flush()
            code = not code
            out.append(line)
        elif code:
            out.append(line)
        elif not line.strip() or line.lstrip()[0] in "|#" or line.startswith("> "):
            flush()
            out.append(line)
        else:
            if ITEM.match(line):
                flush()
            block.append(line)
    flush()
    return "\n".join(out)


for path in sys.argv[1:]:
    with open(path, encoding="utf-8") as source:
        text = wrap(source.read())
    with open(path, "w", encoding="utf-8") as out:
        out.write(text)
