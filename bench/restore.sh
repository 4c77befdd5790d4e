#!/usr/bin/env bash
# Times the restore of 1 GiB in four volumes from one tape by `afsbackup run` in a folder, beside `cp` of the same bytes with as many
# syncs, in one run, in MB/s, and tells the peak memory; a restore along a chain of ten increments beside one of the full dump
# alone; and the restore of a partition of 16 volumes on four tapes beside its volumes one by one. The first argument is the program. The folders are made in the one that TMPDIR names.
. "$(dirname "$0")/in_folder.sh"
measure <<'P'
import os, shutil, subprocess, sys, time
from folder import DUMP, FILES, PREPARED, VOLUMES, gigabyte, image, new_folder, run, sync, write_volume

program, place = sys.argv[1:]
first, names, bytes_of = gigabyte(program, place)
run(program, first, [DUMP])

def by_program():
    taken, told, peak = run(program, first, ["volsetrestore -name bench -extension .r"])
    assert told.count("restored ") == VOLUMES, told
    for name in names:
        os.remove(image(first, name + ".r"))
    return taken, peak

# Each image is synced, and its folder.
def by_cp():
    copies = [os.path.join(place, "copy%d" % count) for count in range(VOLUMES)]
    start = time.monotonic()
    for name, copy in zip(names, copies):
        subprocess.run(["cp", image(first, name), copy], check=True)
        sync(copy)
        handle = os.open(place, os.O_RDONLY)
        os.fsync(handle)
        os.close(handle)
    taken = time.monotonic() - start
    for copy in copies:
        os.remove(copy)
    return taken

copies, runs, peaks = [], [], []
for number in range(3):
    copies.append(by_cp())
    taken, peak = by_program()
    runs.append(taken)
    peaks.append(peak)
print("cp       %8.0f MB/s" % (bytes_of / min(copies) / 1e6))
print("restore  %8.0f MB/s" % (bytes_of / min(runs) / 1e6))
print("ratio    %8.2f" % (min(copies) / min(runs)))
print("peak     %8.2f times a volume" % (max(peaks) / (bytes_of / VOLUMES)))
shutil.rmtree(first)

# ten increments, each of which changes one file of 64
LEVELS = ["/full"] + ["/full" + "".join("/d%d" % k for k in range(1, depth + 1)) for depth in range(1, 11)]
chain = os.path.join(place, "chain")
new_folder(chain, 11)
write_volume(image(chain, "b0"), b"b0", 536870912, FILES)
run(program, chain, PREPARED[:3] + ["adddump -dump " + " ".join(LEVELS)])
run(program, chain, [DUMP])
for depth in range(1, 11):
    time.sleep(1.1)
    run(program, chain, ["vos write -volume b0 -vnode %d -size 4194304" % (2 * depth), "dump -volumeset bench -dump " + LEVELS[depth]])
_, told, _ = run(program, chain, ["volinfo -volume b0"])
full = int(told.strip().split("\n")[-2].split()[1])

def restored(database):
    taken = []
    for number in range(3):
        seconds, told, _ = run(program, chain, ["volrestore -server fs1 -partition vicepa -volume b0 -extension .r"])
        assert database in told, told
        os.remove(image(chain, "b0.r"))
        taken.append(seconds)
    return min(taken)

along = restored("chain 11")
for line in told.strip().split("\n")[:-2]:
    run(program, chain, ["deletedump -dumpid " + line.split()[1]])
alone = restored("chain 1")
print("a chain of ten increments takes %.2f times as long as its full dump alone" % (along / alone))
shutil.rmtree(chain)

# sixteen volumes of four files along a chain of four dumps, each on a tape of its own
TAPES = 4
disk = os.path.join(place, "disk")
new_folder(disk, TAPES)
many = ["b%02d" % count for count in range(16)]
for count, name in enumerate(many):
    write_volume(image(disk, name), name.encode(), 536870912 + 3 * count, 4)
run(program, disk, PREPARED[:3] + ["adddump -dump " + " ".join(LEVELS[:TAPES])])
run(program, disk, [DUMP])
for depth in range(1, TAPES):
    time.sleep(1.1)
    writes = ["vos write -volume %s -vnode %d -size 4194304" % (name, 2 * depth) for name in many]
    run(program, disk, writes + ["dump -volumeset bench -dump " + LEVELS[depth]])

def restored_by(lines):
    taken = []
    for number in range(3):
        seconds, told, _ = run(program, disk, lines)
        assert told.count(" chain %d\n" % TAPES) == len(many), told
        for name in many:
            os.remove(image(disk, name + ".r"))
        taken.append(seconds)
    return min(taken)

to = "-server fs1 -partition vicepa"
together = restored_by(["diskrestore %s -extension .r" % to])
apart = restored_by(["volrestore %s -volume %s -extension .r" % (to, name) for name in many])
print("a partition of 16 volumes on four tapes takes %.2f s, its volumes one by one %.2f s" % (together, apart))
P
