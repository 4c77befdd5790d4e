#!/usr/bin/env bash
# Times two dumps of 128 MiB to two ports, made together in a group and one after the other, by `afsbackup run` in a folder, and tells the
# syncs of both (where strace is there) and the peak memory. The first argument is the program. The folders are made in the one that
# TMPDIR names.
. "$(dirname "$0")/in_folder.sh"
measure <<'P'
import os, re, shutil, subprocess, sys
from folder import image, new_folder, run, write_volume

program, place = sys.argv[1:]
first = os.path.join(place, "first")
new_folder(first, 4)
with open(os.path.join(first, "tapeconfig"), "w") as out:
    out.write("slots:0-1 0\nslots:2-3 1\n")
for count, name in enumerate(["one", "two"]):
    write_volume(image(first, name), name.encode(), 536870912 + 3 * count, 32)
run(program, first, ["addhost -tapehost th -portoffset 0", "addhost -tapehost th -portoffset 1", "adddump -dump /full"]
    + [line for name in ["one", "two"] for line in ("addvolset -name " + name, "addvolentry -name %s -server .* -partition .* -volumes %s" % (name, name))])
DUMPS = ["dump -volumeset one -dump /full", "dump -volumeset two -dump /full -portoffset 1"]
WAYS = {"apart": DUMPS, "together": ["together -schedule 7"] + DUMPS + ["end"]}

def fresh(way):
    path = os.path.join(place, way)
    shutil.copytree(first, path)
    return path

def syncs(way):
    path = fresh(way)
    told = os.path.join(place, "trace")
    script = "".join(line + "\n" for line in WAYS[way]).encode()
    subprocess.run(["strace", "-f", "-o", told, "-e", "trace=fsync,fdatasync", program, "run"], cwd=path, input=script, check=True, capture_output=True)
    shutil.rmtree(path)
    return len(re.findall(r"sync\(", open(told).read()))

for way in WAYS:
    times, peaks = [], []
    for number in range(3):
        path = fresh(way)
        taken, told, peak = run(program, path, WAYS[way])
        assert told.count("dump ") == 2, told
        times.append(taken)
        peaks.append(peak)
        shutil.rmtree(path)
    count = syncs(way) if shutil.which("strace") else "?"
    print("%-9s %8.2f s  peak %6.0f MB  syncs %s" % (way, min(times), max(peaks) / 1e6, count))
P
