#!/usr/bin/env python3
"""Writes a valid dump stream to standard output: one directory and files of 4 MiB each, 64 of them or as many as the
first argument says."""
import struct
import sys

count = int(sys.argv[1]) if len(sys.argv) > 1 else 64
size = 4 * 1024 * 1024
body = bytes(range(256)) * (size // 256)
out = sys.stdout.buffer
out.write(b"\x01" + struct.pack(">II", 0xB3A11322, 1))
out.write(b"v" + struct.pack(">I", 536870912) + b"nbench\0" + b"t" + struct.pack(">HII", 2, 0, 1000))
out.write(b"\x02" + b"i" + struct.pack(">I", 536870912) + b"nbench\0")
out.write(b"\x03" + struct.pack(">II", 1, 1) + b"t\x02")
for number in range(2, 2 * count + 2, 2):
    out.write(b"\x03" + struct.pack(">II", number, number) + b"t\x01" + b"f" + struct.pack(">I", size))
    out.write(body)
out.write(b"\x04" + struct.pack(">I", 0x3A214B6E))
