"""Folders in which `afsbackup run` works, for the benches: volumes of files of 4 MiB, databases of many dumps, runs with their time
and peak memory, and copies with syncs."""
import os
import struct
import subprocess
import time

SIZE = 4 * 1024 * 1024
BODY = bytes(range(256)) * (SIZE // 256)


def number(value):
    return struct.pack(">I", value)


def write_volume(path, name, ident, files):
    """Writes the image of a volume of one directory and so many files, all changed at 1000."""
    with open(path, "wb") as out:
        out.write(b"\x01" + struct.pack(">II", 0xB3A11322, 1))
        out.write(b"v" + number(ident) + b"n" + name + b"\0t" + struct.pack(">HII", 2, 0, 1000))
        out.write(b"\x02i" + number(ident) + b"n" + name + b"\0")
        out.write(b"\x03" + struct.pack(">II", 1, 1) + b"t\x02")
        for count in range(files):
            at = 2 * count + 2
            out.write(b"\x03" + struct.pack(">II", at, at) + b"t\x01s" + number(1000) + b"f" + number(SIZE))
            out.write(BODY)
        out.write(b"\x04" + number(0x3A214B6E))


def new_folder(path, slots):
    """Makes a folder with so many blank tapes, one tape coordinator, and a cell of one partition."""
    os.makedirs(os.path.join(path, "media"))
    os.makedirs(os.path.join(path, "cell", "fs1", "vicepa"))
    for slot in range(slots):
        open(os.path.join(path, "media", "slot%d" % slot), "wb").close()
    with open(os.path.join(path, "tapeconfig"), "w") as out:
        out.write("slots:0-%d 0\n" % (slots - 1))


def image(path, name):
    return os.path.join(path, "cell", "fs1", "vicepa", name + ".vol")


def run(program, path, lines):
    """Runs a script in a folder; the answer is its seconds, what it told, and its peak memory in bytes."""
    script = "".join(line + "\n" for line in lines).encode()
    start = time.monotonic()
    child = subprocess.Popen([program, "run"], cwd=path, stdin=subprocess.PIPE, stdout=subprocess.PIPE)
    child.stdin.write(script)
    child.stdin.close()
    told = child.stdout.read()
    _, status, used = os.wait4(child.pid, 0)
    taken = time.monotonic() - start
    child.returncode = os.waitstatus_to_exitcode(status)
    assert b"refused" not in told and child.returncode == 0, (child.returncode, told[-400:])
    return taken, told.decode(), used.ru_maxrss * 1024


def answer(child, lines):
    """Gives a run these lines, and waits for the last reply; the answer is the line in front of its `ok`."""
    child.stdin.write("".join(line + "\n" for line in lines).encode())
    child.stdin.flush()
    count, last = len(lines), b""
    while count > 0:
        told = child.stdout.readline()
        assert told != b"" and not told.startswith(b"refused"), told
        if told == b"ok\n":
            count -= 1
        else:
            last = told
    return last.decode()


# ---- databases

START = 8192


def text1(text):
    return bytes([len(text)]) + text


def text2(text):
    return struct.pack(">H", len(text)) + text


def found(ident, name, parent=0):
    """The change that lists a dump of one volume on a tape of its own: a full one, or one since this parent."""
    volume = text1(name) + number(ident) + text1(b"fs2") + text1(b"vicepb") + number(ident) + number(parent)
    fragment = struct.pack(">H", 1) + number(1) + number(1)
    tape = number(1) + number(1) + number(9) + number(4) + number(1) + text1(b"")
    head = number(ident) + number(ident) + number(parent) + number(0xFFFFFFFF)
    names = text1(b"other") + text2(b"/full") + text1(b"other.full")
    return b"\x10" + head + names + struct.pack(">H", 1) + tape + number(1) + volume + fragment + text1(b"")


def log_of(path):
    """The log of a journal that was never replaced."""
    with open(os.path.join(path, "media", "journal"), "rb") as source:
        return source.read()[START:]


def write_log(path, log):
    """Gives a folder a journal of this log."""
    slot = b"\x01\x00" + bytes(6) + START.to_bytes(8, "big") + len(log).to_bytes(8, "big")
    with open(os.path.join(path, "media", "journal"), "wb") as out:
        out.write(slot + bytes(START - len(slot)) + log)


def sync(path):
    file = os.open(path, os.O_RDWR)
    os.fsync(file)
    os.close(file)


PREPARED = [
    "addhost -tapehost th -portoffset 0",
    "addvolset -name bench",
    "addvolentry -name bench -server .* -partition .* -volumes b.*",
    "adddump -dump /full",
]


FILES, VOLUMES = 64, 4


def gigabyte(program, place):
    """Makes a folder with 1 GiB in four volumes and a blank tape, ready for a dump; the answer is its path, the volumes' names, and
    how many bytes their images have."""
    path = os.path.join(place, "first")
    new_folder(path, 1)
    names = ["b%d" % count for count in range(VOLUMES)]
    for count, name in enumerate(names):
        write_volume(image(path, name), name.encode(), 536870912 + 3 * count, FILES)
    run(program, path, PREPARED)
    return path, names, sum(os.path.getsize(image(path, name)) for name in names)


DUMP = "dump -volumeset bench -dump /full"
