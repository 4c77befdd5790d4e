#!/usr/bin/env bash
# Times `savedb`, `dbverify` and `restoredb` over a database of 100,000 dumps in chains of seven, by `afsbackup run` in a folder, behind the
# opening; the first one beside `cp` of as many bytes with as many syncs. The first argument is the program. The folders are made in the
# one that TMPDIR names.
. "$(dirname "$0")/in_folder.sh"
measure <<'P'
import os, re, shutil, subprocess, sys, time
from folder import answer, found, log_of, new_folder, run, sync, write_log

program, place = sys.argv[1:]
DUMPS = 100000
path = os.path.join(place, "first")
new_folder(path, 1)
run(program, path, ["addhost -tapehost th -portoffset 0"])
write_log(path, log_of(path) + b"".join(found(ident, b"v", 0 if ident % 7 == 1 else ident - 1) for ident in range(1, DUMPS + 1)))

def syncs():
    """How many syncs a save makes, by strace where it is there; else those of its three commits."""
    if not shutil.which("strace"):
        return 9
    told = os.path.join(place, "trace")
    count = lambda lines: subprocess.run(["strace", "-f", "-o", told, "-e", "trace=fsync,fdatasync", program, "run"], cwd=path, input=lines, check=True,
                                         capture_output=True) and len(re.findall(r"sync\(", open(told).read()))
    return count(b"savedb\n") - count(b"listhosts\n")

def by_program(line):
    """The least time of a line behind the opening, and what it told last."""
    child = subprocess.Popen([program, "run"], cwd=path, stdin=subprocess.PIPE, stdout=subprocess.PIPE)
    answer(child, ["listhosts"])
    times = []
    for _ in range(5):
        start = time.monotonic()
        told = answer(child, [line])
        times.append(time.monotonic() - start)
    child.stdin.close()
    assert child.wait() == 0
    return min(times), told

def by_cp(size, count):
    source, copy = os.path.join(place, "bytes"), os.path.join(place, "copy")
    with open(source, "wb") as out:
        out.write(os.urandom(size))
    times = []
    for _ in range(5):
        start = time.monotonic()
        subprocess.run(["cp", source, copy], check=True)
        for _ in range(count):
            sync(copy)
        times.append(time.monotonic() - start)
    return min(times)

saving, told = by_program("savedb")
size, count = int(re.match(r"saved (\d+) bytes slot 0\n", told)[1]), syncs()
copying = by_cp(size, count)
print("cp        %8.0f MB/s of %.1f MB, %d syncs" % (size / copying / 1e6, size / 1e6, count))
print("savedb    %8.0f MB/s" % (size / saving / 1e6))
print("ratio     %8.2f" % (copying / saving))
verifying, told = by_program("dbverify")
assert told == "verified %d broken 0\n" % DUMPS, told
print("dbverify  %8.2f s of %d dumps" % (verifying, DUMPS))

def back():
    """The time of a read-back into an empty journal."""
    os.remove(os.path.join(path, "media", "journal"))
    child = subprocess.Popen([program, "run"], cwd=path, stdin=subprocess.PIPE, stdout=subprocess.PIPE)
    answer(child, ["addhost -tapehost th -portoffset 0"])
    start = time.monotonic()
    told = answer(child, ["restoredb"])
    taken = time.monotonic() - start
    child.stdin.close()
    assert child.wait() == 0 and told == "database dumps %d\n" % DUMPS, told
    return taken

reading = min(back() for _ in range(3))
print("restoredb %8.2f s, %.0f MB/s" % (reading, size / reading / 1e6))
P
