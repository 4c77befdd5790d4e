#!/usr/bin/env python3
"""Makes the writes and the syncs of commits in the log of a new file, and nothing else, and tells the seconds that they took.
The arguments are the file and the lengths of the pieces, one commit each."""
import os
import struct
import sys
import time

path = sys.argv[1]
pieces = [b"x" * int(size) for size in sys.argv[2:]]
file = os.open(path, os.O_RDWR | os.O_CREAT | os.O_EXCL, 0o644)


def settle(at, piece):
    os.pwrite(file, piece, at)
    os.fsync(file)


start = time.monotonic()
settle(0, b"\x01" + bytes(13) + b"\x20" + bytes(8176))
settle(8191, b"\x00")
length, turn, current, is_open = 0, 0, 0, False
for piece in pieces:
    os.pwrite(file, piece, 8192 + length)
    length, turn, current = length + len(piece), (turn + 1) % 3, 4096 - current
    if is_open:
        settle(current, b"\x00")
    settle(current + 1, struct.pack(">B6xQQ", turn, 8192, length))
    settle(current, b"\x01")
    is_open = True
print(time.monotonic() - start)
