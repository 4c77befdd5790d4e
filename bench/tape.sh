#!/usr/bin/env bash
# Times a tape of 256 MiB written by the writer of tapes to the file of a slot, and scanned again, beside `cp` of that file with the
# syncs that the writer's filemarks make, in one run, in MB/s. The first argument is the program `bench_tools`. The folders are
# made in the one that TMPDIR names.
set -eu
program=$(realpath "${1:-crates/bench_tools/out/bench_tools}")
folder=$(mktemp -d)
trap 'rm -rf "$folder"' EXIT
python3 - "$program" "$folder" <<'P'
import os, subprocess, sys, time

program, folder = sys.argv[1:]
RECORD = 16385
SIZE = 8192 + (16384 + 8) * RECORD

def sync(path):
    file = os.open(path, os.O_RDWR)
    os.fsync(file)
    os.close(file)

def by_program(number):
    place = os.path.join(folder, "run%d" % number)
    os.makedirs(os.path.join(place, "media"))
    tape = os.path.join(place, "media", "slot0")
    open(tape, "wb").close()
    done = subprocess.run([program, "tape"], cwd=place, stderr=subprocess.PIPE, check=True)
    words = done.stderr.split()
    assert words[0] == b"written" and words[2] == b"scanned", done.stderr
    assert os.path.getsize(tape) == SIZE, os.path.getsize(tape)
    return tape, int(words[1]) / 1e6, int(words[3]) / 1e6

# The label with its filemark is synced alone, then all that stands up to the fragment's end, then the end of the part.
def by_cp(tape, number):
    copy = os.path.join(folder, "copy%d" % number)
    start = time.monotonic()
    with open(tape, "rb") as given, open(copy, "wb") as told:
        told.write(given.read(2 * RECORD))
    sync(copy)
    subprocess.run(["cp", tape, copy], check=True)
    sync(copy)
    sync(copy)
    taken = time.monotonic() - start
    os.remove(copy)
    return taken

copies, writes, scans = [], [], []
for number in range(3):
    tape, written, scanned = by_program(number)
    copies.append(by_cp(tape, number))
    os.remove(tape)
    writes.append(written)
    scans.append(scanned)
cp = min(copies)
print("cp       %8.0f MB/s" % (SIZE / cp / 1e6))
for name, taken in (("writing", min(writes)), ("scanning", min(scans))):
    print("%-8s %8.0f MB/s, a ratio of %.2f" % (name, SIZE / taken / 1e6, cp / taken))
P
