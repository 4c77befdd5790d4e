#!/usr/bin/env bash
# Times the dump of 1 GiB in four volumes of files of 4 MiB, by `afsbackup run` in a folder, beside `cp` of the same bytes with as many
# syncs, in one run, in MB/s, and tells the peak memory. The first argument is the program. The folders are made in the one that
# TMPDIR names.
. "$(dirname "$0")/in_folder.sh"
measure <<'P'
import os, shutil, subprocess, sys, time
from folder import DUMP, VOLUMES, gigabyte, image, run, sync

program, place = sys.argv[1:]
first, names, bytes_of = gigabyte(program, place)

def by_program(number):
    path = os.path.join(place, "run%d" % number)
    shutil.copytree(first, path)
    taken, told, peak = run(program, path, [DUMP])
    assert "volumes %d tapes 1" % VOLUMES in told, told
    shutil.rmtree(path)
    return taken, peak

# Two commits of the journal, the label, each volume and the end of the dump are synced.
def by_cp(number):
    copy = os.path.join(place, "copy")
    start = time.monotonic()
    with open(copy, "wb") as told:
        told.write(b"label")
    for _ in range(2):
        sync(copy)
    for name in names:
        subprocess.run("cat '%s' >> '%s'" % (image(first, name), copy), shell=True, check=True)
        sync(copy)
    for _ in range(2):
        sync(copy)
    taken = time.monotonic() - start
    os.remove(copy)
    return taken

copies, runs, peaks = [], [], []
for number in range(3):
    copies.append(by_cp(number))
    taken, peak = by_program(number)
    runs.append(taken)
    peaks.append(peak)
print("cp       %8.0f MB/s" % (bytes_of / min(copies) / 1e6))
print("dump     %8.0f MB/s" % (bytes_of / min(runs) / 1e6))
print("ratio    %8.2f" % (min(copies) / min(runs)))
print("peak     %8.0f MB; a volume has %.0f MB" % (max(peaks) / 1e6, bytes_of / VOLUMES / 1e6))
P
