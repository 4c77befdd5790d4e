#!/usr/bin/env bash
# Times `scantape` of a tape of 1 GiB by `afsbackup run` in a folder beside `cat FILE | wc -c`, and the opening of a journal of
# 100 MiB and its checkpoint, in one run, in MB/s. The first argument is the program. The folders are made in the one that TMPDIR names.
. "$(dirname "$0")/in_folder.sh"
measure <<'P'
import os, shutil, subprocess, sys, time
from folder import DUMP, gigabyte, new_folder, run

program, place = sys.argv[1:]
first, _, _ = gigabyte(program, place)
run(program, first, [DUMP])
shutil.rmtree(os.path.join(first, "cell"))
tape = os.path.join(first, "media", "slot0")
size = os.path.getsize(tape)
cats, scans = [], []
for _ in range(3):
    start = time.monotonic()
    subprocess.run("cat '%s' | wc -c" % tape, shell=True, check=True, stdout=subprocess.DEVNULL)
    cats.append(time.monotonic() - start)
    taken, told, _ = run(program, first, ["scantape"])
    assert "found " in told, told
    scans.append(taken)
print("cat      %8.0f MB/s" % (size / min(cats) / 1e6))
print("scan     %8.0f MB/s" % (size / min(scans) / 1e6))
print("ratio    %8.2f" % (min(cats) / min(scans)))
shutil.rmtree(first)

# volume sets that come and go
second = os.path.join(place, "second")
new_folder(second, 1)
name = b"a" * 31
pair = b"\x01" + bytes([len(name)]) + name + b"\x02" + bytes([len(name)]) + name
log = pair * (104857600 // len(pair))
journal = os.path.join(second, "media", "journal")
slot = b"\x01\x00" + bytes(6) + (8192).to_bytes(8, "big") + len(log).to_bytes(8, "big")
with open(journal, "wb") as out:
    out.write(slot + bytes(8192 - len(slot)) + log)
opens = [run(program, second, ["listhosts"])[0] for _ in range(3)]
print("opening  %8.0f MB/s" % (len(log) / min(opens) / 1e6))
taken, _, _ = run(program, second, ["checkpoint"])
print("opening and a checkpoint of a journal of %d MiB %8.2f s" % (len(log) >> 20, taken))
P
