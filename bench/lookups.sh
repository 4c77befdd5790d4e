#!/usr/bin/env bash
# Times `volinfo`, `dumpinfo -id` and the plan of a restore (`volrestore -n`) by `afsbackup run` over a database of 100 dumps and one of
# 100,000, in one run, in microseconds a line behind the opening, and the opening of both journals. Then lines that look at each dump
# over 1,000, 10,000 and 100,000 dumps, of as many volumes or of one, with how much longer a dump takes in a database ten times as
# large; and `dumpinfo -id` and the opening over as many dumps whose ids are 86,400 apart (round 2^32), as of dumps at one second of the
# day. The first argument is the program. The folders are made in the one that TMPDIR names.
. "$(dirname "$0")/in_folder.sh"
measure <<'P'
import os, re, subprocess, sys, time
from folder import answer, found, image, log_of, new_folder, run, write_log, write_volume

program, place = sys.argv[1:]
BATCH = 50
GROWN = (1000, 10000, 100000)


def each_its_own(ident):
    return b"v%06d" % ident


def one_for_all(ident):
    return b"v"


def database(name, idents, named):
    """A folder with a full and an incremental dump of a volume behind others of these ids; the answer is its path and the last id."""
    path = os.path.join(place, name)
    new_folder(path, 2)
    write_volume(image(path, "b0"), b"b0", 536870912, 0)
    prepared = ["addhost -tapehost th -portoffset 0", "addvolset -name users",
                "addvolentry -name users -server .* -partition .* -volumes b.*", "adddump -dump /full /full/mon"]
    told = run(program, path, prepared + ["dump -volumeset users -dump /full", "dump -volumeset users -dump /full/mon"])[1]
    last = max(int(ident) for ident in re.findall(r"^dump (\d+) ", told, re.M))
    log = b"".join(found(ident, named(ident)) for ident in idents) + log_of(path)
    write_log(path, log)
    return path, last, len(log)


def opening(path):
    return min(run(program, path, ["listhosts"])[0] for _ in range(3))


def microseconds(path, batches):
    """The least time of a line of these batches, once the journal is opened."""
    child = subprocess.Popen([program, "run"], cwd=path, stdin=subprocess.PIPE, stdout=subprocess.PIPE)
    answer(child, ["listhosts"])
    times = []
    for lines in batches:
        start = time.monotonic()
        answer(child, lines)
        times.append((time.monotonic() - start) / len(lines))
    child.stdin.close()
    assert child.wait() == 0
    return min(times) * 1e6


def grown(name, folders, batches):
    """Tells the time of a line over each of these databases, and how much longer a dump takes in each next one."""
    each = [microseconds(path, batches) for path, _, _ in folders]
    ratios = [after / before / 10 for before, after in zip(each, each[1:])]
    print("%-28s %s us a line, a dump %s times as long" % (name, ", ".join("%.0f" % one for one in each), " and ".join("%.2f" % one for one in ratios)))


few, many = database("few", range(1, 101), each_its_own), database("many", range(1, 100001), each_its_own)
bares = [opening(few[0]), opening(many[0])]
print("opening    %9.3f s of %d dumps, %.3f s of %d (%.1f MiB)" % (bares[0], 102, bares[1], 100002, many[2] / 1048576))
for name, line, batches in [("volinfo", "volinfo -volume b0", 40), ("dumpinfo", "dumpinfo -id %d", 40),
                            ("plan", "volrestore -server fs1 -partition vicepa -volume b0 -n", 5)]:
    each = [microseconds(path, [[line % last if "%" in line else line] * BATCH] * batches) for path, last, _ in (few, many)]
    print("%-10s %9.1f us a line over 102 dumps, %.1f over 100,002, ratio %.2f" % (name, each[0], each[1], each[1] / each[0]))

DISK = "diskrestore -server fs1 -partition vicepa -n"
SET = "volsetrestore -name users -n"
volumes = [database("volumes%d" % count, range(1, count + 1), each_its_own) for count in GROWN]
dumps = [database("dumps%d" % count, range(1, count + 1), one_for_all) for count in GROWN]
for name, line, folders in [("dumpinfo", "dumpinfo", volumes), ("volinfo of one volume", "volinfo -volume v", dumps),
                            ("diskrestore over volumes", DISK, volumes), ("diskrestore over dumps", DISK, dumps),
                            ("volsetrestore over volumes", SET, volumes), ("volsetrestore over dumps", SET, dumps)]:
    grown(name, folders, [[line] * 2] * 3)
grown("deletedump", volumes, [["deletedump -dumpid %d" % (2 * batch + one + 1) for one in range(2)] for batch in range(10)])
before = None
for count in (1000, 10000, 100000):
    path, last, _ = database("second%d" % count, [ident % 2**32 for ident in range(43200, 43200 + 86400 * count, 86400)], each_its_own)
    time_of = microseconds(path, [["dumpinfo -id %d" % last] * BATCH] * 40)
    more = "" if before is None else ", %.2f times that of a tenth" % (time_of / before)
    print("one second %9.1f us a line over %d dumps%s; opened in %.3f s" % (time_of, count + 2, more, opening(path)))
    before = time_of
P
