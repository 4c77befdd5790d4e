#!/usr/bin/env python3
"""Tests of `afsbackup run` in a real folder whose journal is at its limit. Groups of two dumps have room for the
record of the one that ends first and for none of the other, for that of the shorter one alone, or for one begin. What
each dump is told, which one is listed and restored, what later dumps are refused by and what a checkpoint makes room
for are reckoned from the definitions, and so is each byte of the journals. A reader of its own takes apart what was
written here. The time and the peak memory of each run are told, and not judged.

The first argument is the program. It works in folders of its own below the second one (else a new one), which need
300 MB."""
import os
import re
import shutil
import struct
import subprocess
import sys
import time

sys.dont_write_bytecode = True
sys.path.insert(1, os.path.join(os.path.dirname(os.path.realpath(__file__)), ".."))
from folder import SIZE, START, image, new_folder, number, text1, text2, write_log, write_volume
from checks import PROGRAM, check, finish, folder

LIMIT = 268435456
FILES = 1
NEVER = 0xFFFFFFFF
LEVEL = b"/full"
# The set, the volume and the volume's id of each port; the second dump's record is the longer one.
SETS = [(b"home", b"home.amy", 536870912), (b"projects", b"projects.x", 536870915)]
DUMPS = ["dump -volumeset home -dump /full", "dump -volumeset projects -dump /full -portoffset 1"]

# ---- changes, as they are written


def entry(of, pattern):
    return b"\x03" + text1(of) + text1(b"") + text1(b"") + text2(pattern)


def record(kind, ident, of, tapes, volumes):
    """The change of this kind that lists a full dump: 15 as it was made, 16 as it was found or is checkpointed."""
    head = number(ident) + number(ident) + number(0) + number(NEVER) + text1(of) + text2(LEVEL) + text1(of + b".full")
    parts = struct.pack(">H", len(tapes)) + b"".join(tapes) + number(len(volumes)) + b"".join(volumes)
    return bytes([kind]) + head + parts + text1(b"")


def tape_part(end, marks, uses):
    return number(1) + number(2) + number(end) + number(marks) + number(uses) + text1(b"")


def volume(name, ident, server, partition, clone):
    fragment = struct.pack(">H", 1) + number(1) + number(3)
    return text1(name) + number(ident) + text1(server) + text1(partition) + number(clone) + number(0) + fragment


def begin(ident):
    return b"\x0a" + number(ident)


def forget(ident):
    return b"\x0d" + number(ident)


def no_host(port):
    return b"\x09" + struct.pack(">H", port)


HOSTS = b"".join(b"\x08" + text1(b"th") + struct.pack(">H", port) for port in (0, 1))
ENTRIES = b"".join(b"\x01" + text1(of) + entry(of, name.replace(b".", b"\\.")) for of, name, _ in SETS)
PREPARED = ENTRIES + b"\x05" + text2(LEVEL) + b"\x01" + HOSTS

# ---- a journal of so many bytes


def fleeting(count):
    """A dump of so many volumes that is listed, and forgotten."""
    volumes = [volume(b"v%030d" % each, each, b"fs2" * 20, b"vicepb", 5) for each in range(count)]
    return record(16, 1, b"other", [tape_part(9, 4, 1)], volumes) + forget(1)


def padding(size):
    """So many bytes, which aren't 1, 2, 4 or 7, of changes of five bytes and of three that change nothing."""
    fives = 2 * size % 3
    return forget(1) * fives + no_host(9) * ((size - 5 * fives) // 3)


def log_of_size(size, volumes):
    """A log of so many bytes behind which stand the sets, the level and the hosts, and no dump."""
    block = fleeting(volumes)
    count, left = divmod(size - len(PREPARED) - 8, len(block))
    return PREPARED + block * count + padding(left + 8)


# ---- a reader of its own, by FORMATS.md


class Reader:
    """The fields of changes, from a place on. A record whose bytes are those of the last one is what that was."""

    def __init__(self, log):
        self.log, self.at, self.last, self.known = log, 0, None, None

    def bytes(self, size):
        assert self.at + size <= len(self.log), "cut at %d" % self.at
        self.at += size
        return self.log[self.at - size : self.at]

    def number(self, size=4):
        return int.from_bytes(self.bytes(size), "big")

    def text(self, most, least=1, size=1):
        length = self.number(size)
        assert least <= length <= most, (length, self.at)
        text = self.bytes(length)
        assert all(33 <= byte <= 126 for byte in text), text
        return text

    def name(self, most, least=1):
        """A name without a slash, whose first byte is no dash."""
        text = self.text(most, least)
        assert b"/" not in text and not text.startswith(b"-"), text
        return text

    def level(self):
        text = self.text(256, 2, 2)
        assert text.startswith(b"/") and all(1 <= len(one) <= 28 for one in text[1:].split(b"/")), text
        return text

    def record(self):
        if self.last and self.log.startswith(self.last, self.at):
            self.at += len(self.last)
        else:
            start = self.at
            self.known = self.new_record()
            self.last = self.log[start : self.at]
        return self.known

    def new_record(self):
        ident, initial, parent, expires = self.number(), self.number(), self.number(), self.number()
        of, level, base = self.name(31), self.level(), self.text(69)
        tapes = [tuple(self.number() for _ in range(5)) + (self.text(80, 0),) for _ in range(self.number(2))]
        volumes = [self.volume() for _ in range(self.number())]
        return ident, initial, parent, expires, of, level, base, tapes, volumes, self.name(63, 0)

    def volume(self):
        fields = self.name(31), self.number(), self.name(63), self.name(31), self.number(), self.number()
        count = self.number(2)
        assert count >= 1, "a volume without a fragment"
        return fields + ([(self.number(), self.number()) for _ in range(count)],)


def folded(log):
    """What a log of the kinds that are used here comes to: sets with their patterns, levels, hosts, dumps by id, the
    greatest id begun, and how many records it has. Each change fits what stands there."""
    sets, levels, hosts, dumps, greatest, records = {}, {}, {}, {}, 0, 0
    reader = Reader(log)
    while reader.at < len(log):
        kind = reader.number(1)
        if kind == 1:
            of = reader.name(31)
            assert of not in sets and b"." not in of, of
            sets[of] = []
        elif kind == 3:
            of, server, partition = reader.name(31), reader.name(63, 0), reader.name(31, 0)
            sets[of].append((server, partition, reader.text(128, 1, 2)))
        elif kind == 5:
            level, expires = reader.level(), reader.number(1)
            assert level not in levels and level.count(b"/") == 1 and expires in (0, 1), level
            levels[level] = expires
        elif kind == 8:
            host, port = reader.name(63), reader.number(2)
            assert port not in hosts, port
            hosts[port] = host
        elif kind == 9:
            hosts.pop(reader.number(2), None)
        elif kind == 10:
            greatest = max(greatest, reader.number())
        elif kind == 13:
            dumps.pop(reader.number(), None)
        else:
            assert kind in (15, 16), "a change of kind %d in front of %d" % (kind, reader.at)
            dump = reader.record()
            assert dump[0] > 0 and dump[0] not in dumps, dump[:4]
            assert dump[2] == 0 and all(one[5] == 0 for one in dump[8]), dump[:4]
            dumps[dump[0]] = dump
            greatest, records = max(greatest, dump[0]), records + 1
    return sets, levels, hosts, dumps, greatest, records


def log_in(place):
    """The log in the journal's file, by its two slots."""
    with open(os.path.join(place, "media", "journal"), "rb") as source:
        slots = [source.read(4096) for _ in range(2)]
        size = os.fstat(source.fileno()).st_size
        good = []
        for slot in slots:
            start, length = int.from_bytes(slot[8:16], "big"), int.from_bytes(slot[16:24], "big")
            if slot[0] == 1 and slot[1] < 3 and START <= start and start + length <= size:
                good.append((slot[1], start, length))
        if len(good) == 2:
            good = good[1:] if good[1][0] == (good[0][0] + 1) % 3 else good[:1]
        _, start, length = good[0]
        source.seek(start)
        return source.read(length)


# ---- what is due


def pieces():
    """The blocks of data of each dump's volume: a directory and its files, as they are written in a stream."""
    return [-(-(166 + 2 * len(name) + 245 + FILES * (52 + SIZE)) // 16352) for _, name, _ in SETS]


def dump_record(kind, which, ident, clone, uses=1):
    """The record of the dump of a set: on its tape stand a label, a mark, a head, and of its volume a head, the data,
    an end and a mark, and then the dump's end and a mark."""
    of, name, number_of = SETS[which]
    tapes = [tape_part(8 + pieces()[which], 3, uses)]
    return record(kind, ident, of, tapes, [volume(name, number_of, b"fs1", b"vicepa", clone)])


ROOM = [len(dump_record(15, which, 1, 1)) for which in (0, 1)]
BEGIN = len(begin(1))


def order_of_ends(schedule):
    """The dumps in the order in which they end: each takes a tape, clones its volume, puts its head, the data and its
    end, and ends. The next turn is that of the one that the schedule picks among those that run."""
    left, ended, picked = [5 + each for each in pieces()], [], schedule
    while any(left):
        picked = (picked * 1103515245 + 12345) % 2147483648
        running = [which for which in (0, 1) if left[which]]
        which = running[picked // 65536 % len(running)]
        left[which] -= 1
        if not left[which]:
            ended.append(which)
    return ended


def schedule_with(order):
    return next(schedule for schedule in range(1000) if order_of_ends(schedule) == order)


def made_line(which, ident):
    return "dump %d %s.full parent 0 volumes 1 tapes 1\n" % (ident, SETS[which][0].decode())


def listed_line(which, ident):
    line = "dump %d %s.full initial %d parent 0 level /full expires never volumes 1 tapes 1\n"
    return line % (ident, SETS[which][0].decode(), ident)


def whole_lines(which, ident, clone, uses):
    of, name, number_of = SETS[which]
    lines = "tape %s.full.1 uses %d permanent -\nvolume %s id %d clone %d from 0\n"
    return listed_line(which, ident) + lines % (of.decode(), uses, name.decode(), number_of, clone)


def full_line(size):
    return "refused 84 LogFull %d\n" % size


def restore(which):
    return "volrestore -server fs1 -partition vicepa -volume %s -extension .r" % SETS[which][1].decode()


def restored_line(which, ident):
    return "restored %s.r from %d chain 1\n" % (SETS[which][1].decode(), ident)


def scan(which, more=""):
    return "scantape%s -portoffset %d" % (more, which)


def found_line(which, ident):
    return "found %d %s.full tapes 1\n" % (ident, SETS[which][0].decode())


# ---- runs


# Runs a command and tells its peak memory behind what it told on standard error. This test itself has much more.
MEASURED = """import resource, subprocess, sys
status = subprocess.call(sys.argv[1:])
print(resource.getrusage(resource.RUSAGE_CHILDREN).ru_maxrss, file=sys.stderr)
sys.exit(status)"""


def run(name, place, *lines):
    """Runs a script, and tells its time and peak memory; the answer is its status and what it told."""
    script = "".join(line + "\n" for line in lines)
    start = time.monotonic()
    command = [sys.executable, "-c", MEASURED, PROGRAM, "run"]
    done = subprocess.run(command, cwd=place, input=script.encode(), capture_output=True)
    taken = time.monotonic() - start
    *errors, peak = done.stderr.decode().splitlines()
    print("%-46s %7.2f s  peak %6.0f MB" % (name, taken, int(peak) * 1024 / 1e6), *errors, flush=True)
    return done.returncode, done.stdout.decode()


def tells(name, place, lines, due):
    """A script tells exactly this, and its status is 1 where something of it is refused."""
    status, told = run(name, place, *lines)
    check(name, told == due and status == (1 if "refused" in due else 0), (status, told, due))


def journal_is(name, place, log):
    """A journal has this log. Where it differs its length and its end are shown."""
    now = log_in(place)
    check(name, now == log, (len(now), len(log), now[-200:], log[-200:]))


def at_limit(size, volumes=1000):
    """A folder of two ports with two blank tapes each, two volumes, and a journal whose log has so many bytes; and
    that log. The journal is read again, and has what stands in front of it."""
    place = folder()
    new_folder(place, 4)
    with open(os.path.join(place, "tapeconfig"), "w") as out:
        out.write("slots:0-1 0\nslots:2-3 1\n")
    for _, name, ident in SETS:
        write_volume(image(place, name.decode()), name, ident, FILES)
    log = log_of_size(size, volumes)
    write_log(place, log)
    read = log_in(place)
    check("the journal has so many bytes", len(read) == size == len(log), (size, len(read), len(log)))
    sets, levels, hosts, dumps, greatest, records = folded(read)
    check("its sets are there", sets == {of: [(b"", b"", name.replace(b".", b"\\."))] for of, name, _ in SETS}, sets)
    check("its level is there", levels == {LEVEL: 1}, levels)
    check("its hosts are there", hosts == {0: b"th", 1: b"th"}, hosts)
    wanted = (size - len(PREPARED) - 8) // len(fleeting(volumes))
    check("each of its dumps is forgotten", dumps == {} and greatest == 1 and records == wanted > 0, (dumps, records))
    return place, log


def holds(place, name):
    """What a volume holds, but for its header."""
    with open(image(place, name), "rb") as source:
        done = subprocess.run([PROGRAM, "examine"], stdin=source, capture_output=True)
    check("an image is a stream", done.returncode == 0, done)
    return done.stdout.split(b"\n", 1)[1]


def data_of(place, name):
    """The data of a volume's files: they stand in its image as they are, each behind its length."""
    with open(image(place, name), "rb") as source:
        return source.read().split(b"f" + number(SIZE))[1:]


def is_restored(which, place):
    name = SETS[which][1].decode()
    check("a volume is restored as it was", holds(place, name + ".r") == holds(place, name))
    now, then = data_of(place, name + ".r"), data_of(place, name)
    same = [a[:SIZE] == b[:SIZE] for a, b in zip(now, then)]
    check("its files have their data", len(now) == len(then) == FILES and all(same))


def tape(place, slot):
    with open(os.path.join(place, "media", "slot%d" % slot), "rb") as source:
        return source.read()


def group(order):
    return ["together -schedule %d" % schedule_with(order)] + DUMPS + ["end", "jobs"]


def group_told(lines, states):
    """What a group tells whose held dumps end so, by their lines; a state is the id of one that was begun, and its
    word."""
    names = [of.decode() for of, _, _ in SETS]
    begun = [(which, state) for which, state in enumerate(states) if state]
    jobs = ["job %d %d %s.full %s\n" % (which + 1, state[0], names[which], state[1]) for which, state in begun]
    return "ok\nheld 1\nheld 2\n" + "".join(lines) + "ok\n" + "".join(jobs) + "ok\n"


def ident_in(told, words):
    """The first id behind these words at the beginning of a line; 0 where there is none."""
    found = re.search("^%s ([0-9]+) " % words, told, re.M)
    return int(found[1]) if found else 0


def dumped(name, place, last, lines, words):
    """Runs dumps once the clock is behind the last id, so that the next one is the session's time; the answer is its
    status, what it told, and that id, which stands behind these words."""
    time.sleep(max(0, last + 1 - time.time()))
    before = int(time.time())
    status, told = run(name, place, *lines)
    ident = ident_in(told, words)
    check("the id is the session's time", before <= ident <= time.time(), (before, told))
    return status, told, ident


def grouped(name, place, order, last=0):
    """Runs the group likewise; the ids are those of its dumps where both are begun: the session's time, and one
    more."""
    status, told, first = dumped(name, place, last, group(order), "job 1")
    return status, told, (first, first + 1)


# ---- the second dump that ends has no room


def second_has_none(order, spare):
    """Behind the record of the dump that ends first so many bytes are left: 7, which have room for one begin, or
    none."""
    first, last = order
    place, log = at_limit(LIMIT - spare - 2 * BEGIN - ROOM[first])
    status, told, ids = grouped("a group, %d ends first, %d bytes are left" % (first + 1, spare), place, order)
    size = LIMIT - spare
    lines = {first: made_line(first, ids[first]), last: full_line(size + ROOM[last])}
    states = {first: (ids[first], "done"), last: (ids[last], "refused")}
    due = group_told([lines[0], lines[1]], [states[0], states[1]])
    check("one is made and one refused", (status, told) == (1, due), (status, told, due))
    log += begin(ids[0]) + begin(ids[1]) + dump_record(15, first, ids[first], ids[0])
    check("so many bytes are left", len(log) == size)
    journal_is("the journal has both begins and one record", place, log)
    check("each dump is on one tape", [len(tape(place, slot)) > 0 for slot in range(4)] == [True, False, True, False])

    other = SETS[last][1].decode()
    tells("opened again", place,
          ["dumpinfo", "dumpinfo -id %d" % ids[first], restore(first), "volinfo -volume " + other, restore(last)],
          listed_line(first, ids[first]) + "ok\n" + whole_lines(first, ids[first], ids[0], 1) + "ok\n"
          + restored_line(first, ids[first]) + "ok\nok\n" + "refused 60 NoDump %s\n" % other)
    is_restored(first, place)
    kept = [tape(place, slot) for slot in range(4)]
    tells("the other stands whole on its tape", place, [scan(last), scan(last, " -dbadd")],
          found_line(last, ids[last]) + "ok\n"
          + found_line(last, ids[last]) + full_line(size + ROOM[last]) + "ok\n")
    check("the tapes are as they were", kept == [tape(place, slot) for slot in range(4)])
    journal_is("the journal is as it was", place, log)
    slot, uses, again = [0, 2][last], 1, ids[last]
    if spare >= BEGIN:
        size += BEGIN
        status, told, again = dumped("a plain dump", place, ids[1], [DUMPS[last], scan(last)], "found")
        due = full_line(size + ROOM[last]) + found_line(last, again) + "ok\n"
        check("a plain dump is refused at its end", (status, told) == (1, due), (status, told, due))
        log, uses = log + begin(again), 2
        journal_is("its begin is in the journal", place, log)
        check("it has taken the same tape", kept[slot] != tape(place, slot) and tape(place, slot + 1) == b"")
        kept = [tape(place, slot) for slot in range(4)]
    tells("a plain dump at the limit", place, [DUMPS[last], DUMPS[first], scan(last)],
          full_line(size + BEGIN) + full_line(size + BEGIN) + found_line(last, again) + "ok\n")
    check("it has taken no tape", kept == [tape(place, slot) for slot in range(4)])
    journal_is("nothing is committed", place, log)

    greatest = max(ids[1], again)
    tells("a checkpoint", place, ["checkpoint", "dumpinfo"], "ok\n" + listed_line(first, ids[first]) + "ok\n")
    log = PREPARED + begin(greatest) + dump_record(16, first, ids[first], ids[0])
    journal_is("the journal is short", place, log)
    status, told, made = dumped("a dump behind it", place, greatest, [DUMPS[last]], "dump")
    check("it is made", (status, told) == (0, made_line(last, made) + "ok\n"), (status, told))
    log += begin(made) + dump_record(15, last, made, made, uses + 1)
    journal_is("the journal has it", place, log)
    check("it has taken the tape again", kept[slot] != tape(place, slot) and tape(place, slot + 1) == b"")
    tells("both are listed and restored", place,
          ["dumpinfo", "dumpinfo -id %d" % made, restore(first), restore(last), scan(last)],
          listed_line(last, made) + listed_line(first, ids[first]) + "ok\n"
          + whole_lines(last, made, made, uses + 1) + "ok\n" + restored_line(first, ids[first]) + "ok\n"
          + restored_line(last, made) + "ok\n" + found_line(last, made) + "ok\n")
    is_restored(first, place)
    is_restored(last, place)
    shutil.rmtree(place)


# ---- the longer record has no room, and the shorter one, which comes later, has


def longer_has_none():
    place, log = at_limit(LIMIT + 1 - 2 * BEGIN - ROOM[1])
    check("the second record is the longer one", ROOM[0] < ROOM[1])
    status, told, ids = grouped("a group, the longer record is refused", place, [1, 0])
    due = group_told([made_line(0, ids[0]), full_line(LIMIT + 1)], [(ids[0], "done"), (ids[1], "refused")])
    check("the later one is made", (status, told) == (1, due), (status, told, due))
    log += begin(ids[0]) + begin(ids[1]) + dump_record(15, 0, ids[0], ids[0])
    journal_is("its record is in the journal", place, log)
    tells("room for the other, from its tape", place,
          ["dumpinfo", "checkpoint", scan(1, " -dbadd"), "dumpinfo", restore(0), restore(1)],
          listed_line(0, ids[0]) + "ok\nok\n" + found_line(1, ids[1]) + "added %d\nok\n" % ids[1]
          + listed_line(1, ids[1]) + listed_line(0, ids[0]) + "ok\n"
          + restored_line(0, ids[0]) + "ok\n" + restored_line(1, ids[1]) + "ok\n")
    is_restored(0, place)
    is_restored(1, place)
    records = dump_record(16, 0, ids[0], ids[0]) + dump_record(16, 1, ids[1], ids[0])
    journal_is("both are in the journal", place, PREPARED + begin(ids[1]) + records)
    shutil.rmtree(place)


# ---- the second begin has no room


def begin_has_none():
    place, log = at_limit(LIMIT - BEGIN)
    status, told, ids = grouped("a group, one begin fits", place, [0, 1])
    due = group_told([full_line(LIMIT + ROOM[0]), full_line(LIMIT + BEGIN)], [(ids[0], "refused"), None])
    check("both are refused, and one of them was begun", (status, told) == (1, due), (status, told, due))
    journal_is("one begin is in the journal", place, log + begin(ids[0]))
    check("the other has taken no tape", [len(tape(place, slot)) > 0 for slot in range(4)] == [True] + [False] * 3)
    tells("no dump is listed, and a checkpoint makes room", place, ["dumpinfo", "checkpoint", scan(0), scan(1)],
          "ok\nok\n" + found_line(0, ids[0]) + "ok\nok\n")
    journal_is("the journal is short then", place, PREPARED + begin(ids[0]))
    old = ids[0]
    status, told, ids = grouped("the group once more", place, [1, 0], old)
    due = group_told([made_line(0, ids[0]), made_line(1, ids[1])], [(ids[0], "done"), (ids[1], "done")])
    check("both are made", (status, told) == (0, due), (status, told, due))
    records = dump_record(15, 1, ids[1], ids[0]) + dump_record(15, 0, ids[0], ids[0], 2)
    journal_is("both are in the journal, in the order of their ends", place,
               PREPARED + begin(old) + begin(ids[0]) + begin(ids[1]) + records)
    tells("both are restored", place, ["dumpinfo", restore(0), restore(1)],
          listed_line(1, ids[1]) + listed_line(0, ids[0]) + "ok\n"
          + restored_line(0, ids[0]) + "ok\n" + restored_line(1, ids[1]) + "ok\n")
    is_restored(0, place)
    is_restored(1, place)
    shutil.rmtree(place)


if __name__ == "__main__":
    for order, spare in [([0, 1], 7), ([1, 0], 0)]:
        second_has_none(order, spare)
    longer_has_none()
    begin_has_none()
    finish()
