#!/usr/bin/env python3
"""Tests of `afsbackup run` in a real folder: scripts after one another, standard streams that are closed, full or a terminal,
what can't be opened, words on standard error, scripts that are read in pieces, links, files that somebody else changes, rights,
calls that are interrupted, a full device, a damaged journal, a journal and a volume that are lost and got back, also with a
tape out, a journal of the first version, many images, dumps made together, a database that is saved, verified and read back,
and a program that is killed in the midst of its scripts, of its groups, of its saves and of reading them back.

The first argument is the program. It works in folders of its own below the second one (else a new one)."""
import os
import pty
import random
import re
import shutil
import stat
import subprocess
import sys
import time

sys.dont_write_bytecode = True
from checks import PROGRAM, check, finish, folder, shell

random.seed(17)

MADE = "media: made a new, empty database"
ENTRY = "addvolentry -name users -server .* -partition .* -volumes "


def text(lines):
    return "".join(line + "\n" for line in lines).encode()


def run(place, *lines, **more):
    return subprocess.run([PROGRAM, "run"], cwd=place, input=text(lines), capture_output=True, timeout=120, **more)


def sets(place):
    done = run(place, "listvolsets")
    check("the journal opens", done.returncode == 0, done)
    return done.stdout.decode().split("\n")


def entries(place):
    """The patterns of the set `users`, in order."""
    return [line.split(" ")[-1] for line in sets(place) if line.startswith("entry ")]


def has_set(place, name):
    return "set " + name in sets(place)


def says(name, done, status, *lines):
    text = done.stderr.decode().split("\n")
    fits = len(text) == len(lines) + 1 and all(line.startswith(wanted) for line, wanted in zip(text, lines))
    check(name, done.returncode == status and fits, done)


# ---- scripts after one another


def scripts():
    place = folder()
    says("an empty script in an empty folder", run(place), 0, MADE)
    says("an empty script in a folder with a database", run(place), 0)
    check("a first script", run(place, "addvolset -name users", ENTRY + "user\\.a").stdout == b"ok\nok\n")
    check("a second one finds what it left", entries(place) == ["user\\.a"], sets(place))
    check("a refused line", run(place, "addvolset -name users").returncode == 1)


# ---- standard streams


def streams():
    add = ["addvolset -name one", "addvolset -name two"]
    for closed, status, kept, line, cause in [
        ("<&-", 3, False, "the input could not be read", "standard input: "),
        ("< .", 3, False, "the input could not be read", "standard input: "),
        (">&-", 9, True, "the output took no more", "standard output: "),
        ("> /dev/full", 9, True, "the output took no more", "standard output: "),
    ]:
        place = folder()
        done = shell(place, '"$P" run ' + closed, text(add))
        says("streams " + closed, done, status, line, cause, MADE)
        check("what was done stays " + closed, has_set(place, "one") == kept and not has_set(place, "two"), sets(place))
    place = folder()
    done = shell(place, '"$P" run 2>&-', text(add))
    check("closed errors", done.returncode == 0 and has_set(place, "two"), done)
    place = folder()
    done = shell(place, '(sleep 0.3; "$P" run; echo $? > status) | true', text(add))
    check("a broken pipe", open(os.path.join(place, "status")).read() == "9\n" and has_set(place, "one"), done)


# ---- what can't be opened


def opening():
    place = folder()
    open(os.path.join(place, "media"), "w").close()
    says("media is a file", run(place), 4, "cannot open", "media/journal: ")
    place = folder()
    os.makedirs(os.path.join(place, "media", "slot7"))
    says("a slot is a folder", run(place), 4, "cannot open", "media/slot7: ")
    place = folder()
    os.mkdir(os.path.join(place, "tapeconfig"))
    says("tapeconfig is a folder", run(place), 11, "cannot open", "tapeconfig: ")
    place = folder()
    with open(os.path.join(place, "tapeconfig"), "w") as file:
        file.write("slots:0-1 0\ntape 0\n")
    refused = "the configuration has no known form"
    says("tapeconfig has no known form", run(place), 7, refused, "tapeconfig: refused at line 2: tape", MADE)
    says("a folder whose database was made", run(place), 7, refused, "tapeconfig: refused at line 2: tape")
    place = folder()
    os.mkdir(os.path.join(place, "media"))
    with open(os.path.join(place, "media", "journal"), "wb") as file:
        file.write(bytes(8192))
    says("a damaged journal", run(place), 8, "the journal is no list of changes", "media/journal: no list of changes from byte 0 on")
    place = folder()
    first = subprocess.Popen([PROGRAM, "run"], cwd=place, stdin=subprocess.PIPE, stdout=subprocess.PIPE)
    first.stdin.write(b"addvolset -name users\n")
    first.stdin.flush()
    check("the first program works", first.stdout.readline() == b"ok\n")
    says("a second program is refused", run(place, "listvolsets"), 4, "cannot open", "media: another afsbackup runs in this folder")
    first.stdin.close()
    check("the first program ends", first.wait() == 0)


# ---- words of the configuration


def words():
    for line, word in [("tape", "tape"), ("slots:3-0 0", "slots:3-0"), ("slots:0-3 58511", "58511"), ("0 2x slots:0-0 0", "2x"),
                       ("name_check maybe 0", "maybe"), ("cell -a", "-a"), ("0 0 slots:0-0 0 more", "more"), ("\x1b[2J 0", "?[2J"),
                       ("slots:8-9 0", "an earlier line has its port, its slots or the cell"), ("x" * 65, "x" * 64 + "..")]:
        place = folder()
        with open(path(place, "tapeconfig"), "w") as file:
            file.write("# one\nslots:8-9 0\n%s\nslots:4-5 x\n" % line)
        done = run(place)
        says("a word that isn't understood: %r" % line, done, 7, "the configuration has no known form", "tapeconfig: refused at line 3: " + word, MADE)
        check("the whole line is that: %r" % line, done.stderr.split(b"\n")[1].decode() == "tapeconfig: refused at line 3: " + word, done)


# ---- a person at a terminal


def at_terminal(word, *given):
    """Gives pieces to the program at a terminal, and says how it ended, what it told and what stood on its errors, which are none."""
    place = folder()
    ours, theirs = pty.openpty()
    program = subprocess.Popen([PROGRAM, word], cwd=place, stdin=theirs, stdout=subprocess.PIPE, stderr=subprocess.PIPE)
    os.close(theirs)
    for piece in given:
        os.write(ours, piece)
        time.sleep(0.3)
    out, errors = program.communicate(timeout=120)
    os.close(ours)
    return program.returncode, out, errors.decode().split("\n")


def terminals():
    commands, stream = "reading commands from the terminal", "reading a volume dump stream from the terminal"
    for end in [b"\x04", b"quit\n"]:
        status, out, errors = at_terminal("run", b"addvolset -name one\n", b"listvolsets\n", end)
        fits = (status, out) == (0, b"ok\nset one\nok\n") and errors[0].startswith(commands) and errors[1:] == [MADE, ""]
        check("commands from a terminal, ended by %r" % end, fits, (status, out, errors))
    status, out, errors = at_terminal("examine", b"\x04")
    fits = (status, out) == (1, b"refused 86 CutStream 0\n") and errors[0].startswith(stream) and errors[1:] == [""]
    check("a stream from a terminal", fits, (status, out, errors))
    status, out, errors = at_terminal("rehearse")
    check("nothing is waited for", status == 2 and errors == [""], (status, out, errors))


# ---- scripts in pieces


def pieces():
    place = folder()
    comment = "# " + "x" * 61
    done = run(place, *[comment] * 16384, "addvolset -name one", "quit", "addvolset -name two")
    check("a long script", done.returncode == 0 and done.stdout == b"ok\n", done)
    check("nothing is run behind quit", has_set(place, "one") and not has_set(place, "two"))
    size = 250000
    start = time.monotonic()
    done = run(place, *[comment] * size)
    took = time.monotonic() - start
    check("a script of comments", done.returncode == 0 and done.stdout == b"", done)
    print("a script of %d MB: %.1f MB/s" % (size * 64 // 1000000, size * 64 / 1000000 / took))
    done = run(place, "addvolset -name three", "# " + "x" * (1 << 24))
    says("a script that is too long", done, 10, "the input is longer than it may be")
    check("its first line is run", done.stdout == b"ok\n", done)
    program = subprocess.Popen([PROGRAM, "run"], cwd=place, stdin=subprocess.PIPE, stdout=subprocess.PIPE)
    for piece, reply in [(b"addvolset -name", b""), (b" four\naddvolset", b"ok\n"), (b" -name five\n\n", b"ok\n")]:
        program.stdin.write(piece)
        program.stdin.flush()
        check("a line is run once it is whole", not reply or program.stdout.readline() == reply)
    program.stdin.close()
    check("it ends with its input", program.wait() == 0 and program.stdout.read() == b"")
    if shutil.which("strace") is None:
        print("not tried: how many reads a script takes (no strace)")
        return
    done, trace = traced(place, ["-e", "trace=read"], *[comment] * 16384)
    reads = sum(" read(0," in line for line in trace)
    check("a script of a MiB takes few reads", done.returncode == 0 and 0 < reads <= 300, reads)


# ---- faults on the way


def full():
    place = folder()
    done = subprocess.run(["mount", "-t", "tmpfs", "-o", "size=64k", "tmpfs", place], capture_output=True)
    if done.returncode != 0:
        print("not tried: a full device (no leave to mount)")
        return
    try:
        names = ["x" * 100 + "%04d" % number for number in range(2000)]
        done = run(place, "addvolset -name users", *[ENTRY + name for name in names])
        says("a full device", done, 4, "a call on the journal or a tape failed", "media/journal: ", MADE)
        told = done.stdout.count(b"ok\n") - 1
        subprocess.run(["mount", "-o", "remount,size=1m", place], check=True)
        kept = entries(place)
        check("what was told is kept", told > 100 and kept[:told] == names[:told] and len(kept) - told in (0, 1), (told, len(kept)))
    finally:
        subprocess.run(["umount", place])


def cell():
    failed = "a call on the cell failed"
    create = "vos create -server fs1 -partition vicepa -name user.a"
    for server, partition in [("..", "vicepa"), ("fs1", ".."), (".", ".")]:
        place = folder()
        done = run(place, "vos create -server %s -partition %s -name user.a" % (server, partition), "addvolset -name one")
        name = "out of the folder %s/%s" % (server, partition)
        check(name + ": the line is refused, and the next one is run", done.returncode == 1 and done.stdout == b"refused 83 TooLarge user.a\nok\n", done)
        left = [name for _, _, names in os.walk(place) for name in names]
        check(name + ": nothing is written out of it", left == ["journal"], left)
    place = folder()
    program = subprocess.Popen([PROGRAM, "run"], cwd=place, stdin=subprocess.PIPE, stdout=subprocess.PIPE, stderr=subprocess.PIPE)
    program.stdin.write(text([create]))
    program.stdin.flush()
    check("a volume is made", program.stdout.readline() == b"ok\n")
    os.remove(os.path.join(place, "cell", "fs1", "vicepa", "user.a.vol"))
    _, errors = program.communicate(text(["vos backup -volume user.a"]))
    lines = errors.decode().split("\n")
    fits = program.returncode == 5 and lines[0] == failed and lines[1].startswith("cell/fs1/vicepa/user.a.vol: ")
    check("an image that is gone", fits, lines)
    place = folder()
    done = subprocess.run(["mount", "-t", "tmpfs", "-o", "size=64k", "tmpfs", place], capture_output=True)
    if done.returncode != 0:
        print("not tried: a full device (no leave to mount)")
        return
    try:
        done = run(place, create, "vos write -volume user.a -vnode 2 -size 100000")
        says("a full device for an image", done, 5, failed, "cell/fs1/vicepa/user.a.vol: ", MADE)
    finally:
        subprocess.run(["umount", place])


# ---- links, files that somebody else changes, and rights


def tapes(slots):
    """A folder with a database, a host and so many blank tapes."""
    place = folder()
    os.mkdir(path(place, "media"))
    for slot in range(slots):
        open(path(place, "media", "slot%d" % slot), "wb").close()
    with open(path(place, "tapeconfig"), "w") as file:
        file.write("slots:0-%d 0\n" % (slots - 1))
    told("a host", place, HOST)
    return place


def contents(place, name):
    with open(path(place, "media", name), "rb") as file:
        return file.read()


def links():
    for make in [os.link, os.symlink]:
        place = tapes(2)
        journal = contents(place, "journal")
        os.remove(path(place, "media", "slot1"))
        make(path(place, "media", "journal"), path(place, "media", "slot1"))
        done = run(place, "labeltape -name users.full.1 -slot 1")
        says("a slot is the journal", done, 4, "cannot open", "media/journal and media/slot1: one file under two names")
        check("the journal is as it was", contents(place, "journal") == journal and done.stdout == b"", done)
        os.remove(path(place, "media", "slot1"))
        make(path(place, "media", "slot0"), path(place, "media", "slot1"))
        done = run(place, "labeltape -name users.full.1 -slot 1")
        says("a slot is another one", done, 4, "cannot open", "media/slot0 and media/slot1: one file under two names")
        check("the tape is as it was", contents(place, "slot0") == b"" and done.stdout == b"", done)
        os.remove(path(place, "media", "slot1"))
        os.rename(path(place, "media", "slot0"), path(place, "elsewhere"))
        os.symlink(path(place, "elsewhere"), path(place, "media", "slot0"))
        told("a tape may be a link", place, "labeltape -name users.full.1 -slot 0")
        check("the link stays, and the tape is written", os.path.islink(path(place, "media", "slot0")) and os.path.getsize(path(place, "elsewhere")) > 0)
    for name in ["journal", "slot1"]:
        for make in [os.mkfifo, lambda at: os.symlink("/dev/null", at)]:
            place = tapes(2)
            os.remove(path(place, "media", name))
            make(path(place, "media", name))
            says("no regular file: " + name, run(place), 4, "cannot open", "media/%s: not a regular file" % name)
    for make in [os.mkfifo, os.mkdir]:
        place = tapes(1)
        os.makedirs(path(place, "cell", "fs1", "vicepa"))
        make(path(place, "cell", "fs1", "vicepa", "user.a.vol"))
        says("an image that is no regular file", run(place), 5, "cannot open", "cell/fs1/vicepa/user.a.vol: not a regular file")
    place = tapes(1)
    os.makedirs(path(place, "cell", "fs1", "vicepa"))
    with open(path(place, "aside"), "w") as file:
        file.write("mine")
    for fresh, make in [("-new", os.symlink), ("-copy", os.link)]:
        make(path(place, "aside"), path(place, "cell", "fs1", "vicepa", fresh))
    told("a volume and its copy", place, "vos create -server fs1 -partition vicepa -name user.a", "vos backup -volume user.a")
    with open(path(place, "aside")) as file:
        check("what a link led to is as it was", file.read() == "mine")
    left = sorted(os.listdir(path(place, "cell", "fs1", "vicepa")))
    check("the images stand in their places", left == ["user.a.backup.vol", "user.a.vol"], left)
    check("they are no links", not any(os.path.islink(path(place, "cell", "fs1", "vicepa", name)) for name in left))


def replaced(at):
    shutil.copy(at, at + ".other")
    os.rename(at + ".other", at)


def longer(at):
    with open(at, "ab") as file:
        file.write(b"x")


def shorter(at):
    os.truncate(at, os.path.getsize(at) - 1)


def emptied(at):
    os.truncate(at, 0)


def changed():
    lines = {"journal": "addvolset -name two", "slot0": "labeltape -name users.full.2 -slot 0"}
    for name, line in lines.items():
        for change in [replaced, longer, shorter, emptied, os.remove]:
            place = tapes(1)
            told("a label", place, "labeltape -name users.full.1 -slot 0")
            program = subprocess.Popen([PROGRAM, "run"], cwd=place, stdin=subprocess.PIPE, stdout=subprocess.PIPE, stderr=subprocess.PIPE)
            program.stdin.write(b"readlabel\n")
            program.stdin.flush()
            check("the program works", program.stdout.readline().startswith(b"label ") and program.stdout.readline() == b"ok\n")
            change(path(place, "media", name))
            out, errors = program.communicate(text([line]))
            found = (program.returncode, out, errors.decode().split("\n"))
            fits = found[:2] == (4, b"") and found[2][0] == "a call on the journal or a tape failed" and found[2][1].startswith("media/%s: " % name)
            check("%s is changed by another program (%s)" % (name, change.__name__), fits, found)


def rights():
    place = folder()
    done = shell(place, 'umask 0; "$P" run', text([HOST, "vos create -server fs1 -partition vicepa -name user.a"]))
    says("a run that makes all", done, 0, MADE)
    mode = lambda *names: stat.S_IMODE(os.stat(path(place, *names)).st_mode)
    folders = [("media",), ("cell",), ("cell", "fs1"), ("cell", "fs1", "vicepa")]
    check("folders are their owner's", all(mode(*names) == 0o700 for names in folders), [oct(mode(*names)) for names in folders])
    files = [("media", "journal"), ("cell", "fs1", "vicepa", "user.a.vol")]
    check("files are their owner's", all(mode(*names) == 0o600 for names in files), [oct(mode(*names)) for names in files])
    os.chmod(path(place, "media"), 0o750)
    os.chmod(path(place, "media", "journal"), 0o640)
    done = run(place, "listhosts")
    check("what is there keeps its rights", done.returncode == 0 and done.stderr == b"" and mode("media") == 0o750 and mode("media", "journal") == 0o640, done)


# ---- interrupted calls, the order of names, and time


def traced(place, flags, *lines):
    """Runs lines under strace, whose own output goes to a file beside the folder."""
    trace = place + ".trace"
    done = subprocess.run(["strace", "-f", "-o", trace, *flags, PROGRAM, "run"], cwd=place, input=text(lines), capture_output=True, timeout=300)
    with open(trace) as file:
        return done, file.read().split("\n")


def interrupted():
    if shutil.which("strace") is None:
        print("not tried: interrupted calls (no strace)")
        return
    lines = ["labeltape -name users.full.1 -slot 0", "vos create -server fs1 -partition vicepa -name user.a",
             "vos write -volume user.a -vnode 2 -size 100000", "vos backup -volume user.a", "vos remove -volume user.a", "bogus"]
    for calls in ["read", "write", "mkdir", "rename", "unlink", "statx", "openat", "pread64", "pwrite64", "fsync"]:
        place = tapes(1)
        # From the first line of the script on, so that the loader's own calls are left alone.
        done, trace = traced(place, ["-e", "trace=" + calls, "-e", "inject=%s:error=EINTR:when=20+2" % calls], *lines)
        known = subprocess.run([PROGRAM, "run"], cwd=tapes(1), input=text(lines), capture_output=True)
        same = (done.returncode, done.stdout, done.stderr) == (known.returncode, known.stdout, known.stderr)
        check("interrupted: " + calls, same and known.returncode == 1, (done, known))


def order_of_names():
    if shutil.which("strace") is None:
        print("not tried: the order of names (no strace)")
        return
    place = dumped()
    told("the volume moves", place, "vos create -server fs2 -partition vicepb -name user.b")
    done, trace = traced(place, ["-e", "trace=rename,fsync,openat"], "volrestore -server fs2 -partition vicepb -volume user.a")
    check("a volume is restored elsewhere", done.returncode == 0, done)
    names = [at for at, line in enumerate(trace) if " rename(" in line and ".vol" in line]
    between = trace[names[0] : names[1]] if len(names) == 2 else []
    waits = sum(" fsync(" in line and line.endswith("= 0") for line in between)
    check("both folders are waited for between the two names", len(names) == 2 and waits == 2, trace[-40:])


def many_images():
    place = folder()
    partition = path(place, "cell", "fs1", "vicepa")
    os.makedirs(partition)
    for number in range(65536):
        open(path(partition, "user.%d.vol" % (number * 40503 % 65536)), "w").close()
    start = time.monotonic()
    done = run(place, "vos listvol")
    took = time.monotonic() - start
    check("65,536 images", done.returncode == 0 and done.stdout.count(b"\n") > 65536, (done.returncode, done.stderr))
    print("an opening of 65,536 images and their list: %.1f s" % took)
    open(path(partition, "one.more.vol"), "w").close()
    says("one image more", run(place), 5, "cannot open", "there are more than 65,536 images")


# ---- lost journals, and a journal of the first version

HOST = "addhost -tapehost th -portoffset 0"
RESTORE = "volrestore -server fs1 -partition vicepa -volume user.a"


def path(place, *names):
    return os.path.join(place, *names)


def told(name, place, *lines):
    done = run(place, *lines)
    check(name + ": every line is done", done.returncode == 0, done)
    return done.stdout.decode()


def dumped():
    """A folder with a full dump of a volume on the tape of slot 0 and an increment on that of slot 1."""
    place = folder()
    os.mkdir(path(place, "media"))
    for slot in range(3):
        open(path(place, "media", "slot%d" % slot), "wb").close()
    with open(path(place, "tapeconfig"), "w") as file:
        file.write("slots:0-2 0\n")
    told("a volume", place, HOST, "addvolset -name users", ENTRY + "user\\..*", "adddump -dump /full /full/mon",
         "vos create -server fs1 -partition vicepa -name user.a", "vos write -volume user.a -vnode 2 -size 100000")
    time.sleep(1.1)
    told("a full dump", place, "dump -volumeset users -dump /full")
    time.sleep(1.1)
    told("an increment", place, "vos write -volume user.a -vnode 4 -size 70000", "dump -volumeset users -dump /full/mon")
    return place


def holds(place, name="user.a"):
    """What a volume holds, but for its header."""
    with open(path(place, "cell", "fs1", "vicepa", name + ".vol"), "rb") as file:
        done = subprocess.run([PROGRAM, "examine"], stdin=file, capture_output=True)
    check("an image is a stream", done.returncode == 0, done)
    return done.stdout.split(b"\n", 1)[1]


def lose(place):
    os.remove(path(place, "media", "journal"))
    image = path(place, "cell", "fs1", "vicepa", "user.a.vol")
    if os.path.exists(image):
        os.remove(image)


def lost():
    place = dumped()
    whole = holds(place)
    lose(place)
    text = told("a lost journal", place, HOST, "scantape -dbadd", RESTORE)
    check("both dumps are added", text.count("added ") == 2 and " chain 2\n" in text, text)
    check("the volume is as it was", holds(place) == whole)
    lose(place)
    os.rename(path(place, "media", "slot0"), path(place, "aside"))
    done = run(place, HOST, "scantape -dbadd", RESTORE)
    check("without its first tape", done.returncode == 1 and done.stdout.count(b"added ") == 1 and b"refused 61 " in done.stdout, done)
    check("no volume is made", not os.path.exists(path(place, "cell", "fs1", "vicepa", "user.a.vol")))
    os.rename(path(place, "aside"), path(place, "media", "slot0"))
    done = run(place, "scantape -dbadd", RESTORE)
    check("the tape is put back", done.stdout.count(b"added ") == 1 and done.stdout.endswith(b" chain 2\nok\n"), done)
    check("the volume is as it was then", holds(place) == whole)
    lose(place)
    os.rename(path(place, "media", "slot1"), path(place, "aside"))
    text = told("without its second tape", place, HOST, "scantape -dbadd", RESTORE)
    check("the full dump is restored alone", text.count("added ") == 1 and " chain 1\n" in text and holds(place) != whole, text)


def old_record(log, at):
    """The record of a dump without a cell's name in the first version's form, and where it ends: that of the second one has two more
    fields for each tape, and the cell's name behind it."""
    def text1(at):
        return at + 1 + log[at]

    start = at + 1
    at = text1(start + 16)
    at = text1(at + 2 + int.from_bytes(log[at : at + 2], "big"))
    tapes, at = int.from_bytes(log[at : at + 2], "big"), at + 2
    record = log[start:at]
    for _ in range(tapes):
        record += log[at : at + 16]
        at = text1(at + 20)
    volumes, begin, at = int.from_bytes(log[at : at + 4], "big"), at, at + 4
    for _ in range(volumes):
        at = text1(text1(text1(at) + 4)) + 8
        at += 2 + 8 * int.from_bytes(log[at : at + 2], "big")
    return bytes([log[start - 1] - 3]) + record + log[begin:at], text1(at)


def first_version():
    place = dumped()
    whole, listed = holds(place), told("its dumps", place, "dumpinfo")
    ids = [int(ident).to_bytes(4, "big") for ident in re.findall(r"^dump (\d+) ", listed, re.M)]
    with open(path(place, "media", "journal"), "rb") as file:
        log = file.read()[8192:]
    for ident in ids:
        at = log.index(b"\x0f" + ident)
        record, end = old_record(log, at)
        log = log[:at] + record + log[end:]
    with open(path(place, "media", "journal"), "wb") as file:
        slot = b"\1" + bytes(7) + (8192).to_bytes(8, "big") + len(log).to_bytes(8, "big")
        file.write(slot + bytes(8192 - len(slot)) + log)
    check("two dumps were written so", len(ids) == 2 and all(b"\x0c" + ident in log for ident in ids), ids)
    text = told("a journal of the first version", place, "dumpinfo", RESTORE + " -extension .r")
    check("it lists the same dumps", text.startswith(listed) and " chain 2\n" in text and holds(place, "user.a.r") == whole, text)
    told("it is checkpointed", place, "checkpoint")
    with open(path(place, "media", "journal"), "rb") as file:
        journal = file.read()
    check("its records are of the second version then", all(b"\x10" + ident in journal for ident in ids))
    check("it lists the same dumps again", told("behind it", place, "dumpinfo") == listed)
    text = told("it is used", place, "vos write -volume user.a -vnode 6 -text more", "dump -volumeset users -dump /full/mon", RESTORE + " -extension .s")
    check("a dump behind it is restored", " chain 2\n" in text and holds(place, "user.a.s") == holds(place), text)


# ---- kills


def kills(runs):
    place = folder()
    run(place, "addvolset -name users")
    told_in_all, kept = 0, []
    for number in range(runs):
        names = ["user\\.%d-%d" % (number, k) for k in range(400)]
        program = subprocess.Popen([PROGRAM, "run"], cwd=place, stdin=subprocess.PIPE, stdout=open(os.path.join(place, "told"), "wb"))
        try:
            program.stdin.write("".join(ENTRY + name + "\n" for name in names).encode())
            program.stdin.flush()
        except BrokenPipeError:
            pass
        time.sleep(random.random() * 0.25)
        program.kill()
        program.wait()
        try:
            program.stdin.close()
        except BrokenPipeError:
            pass
        told = open(os.path.join(place, "told"), "rb").read().count(b"ok\n")
        now = entries(place)
        more = now[len(kept) :]
        check("kill %d: what stood there stays" % number, now[: len(kept)] == kept)
        check("kill %d: each told line is in the journal" % number, more == names[: len(more)] and len(more) - told in (0, 1), (told, len(more)))
        told_in_all, kept = told_in_all + told, now
    print("killed %d times: %d replies told, %d entries in the journal" % (runs, told_in_all, len(kept)))


# ---- kills in the midst of a group


PORTS = (0, 1, 2)


def grouped():
    """A folder with three tape coordinators, two volumes in a set each, and levels whose dumps never expire."""
    place = folder()
    os.mkdir(path(place, "media"))
    for slot in range(24):
        open(path(place, "media", "slot%d" % slot), "wb").close()
    with open(path(place, "tapeconfig"), "w") as file:
        file.write("".join("slots:%d-%d %d\n" % (8 * port, 8 * port + 7, port) for port in PORTS))
    told("three ports", place, *("addhost -tapehost th -portoffset %d" % port for port in PORTS),
         *(line for name in "ab" for line in ("addvolset -name s" + name, "addvolentry -name s" + name + " -server .* -partition .* -volumes user\\." + name,
           "vos create -server fs1 -partition vicepa -name user." + name, "vos write -volume user." + name + " -vnode 2 -size 700000")),
         "adddump -dump /full -expires at NEVER")
    return place


def group(schedule):
    return ["together -schedule %d" % schedule, "dump -volumeset sa -dump /full", "dump -volumeset sb -dump /full -portoffset 1",
            "dump -volumeset sa -dump /full -portoffset 2", "kill -job 3 -after 20", "end"]


def made(text):
    """The ids of the dumps that whole replies to `end` tell as made, and of those that they tell as killed."""
    whole = text[: text.rfind("ok\n") + 3]
    return re.findall(r"^dump (\d+) ", whole, re.M), re.findall(r"^killed 3 (\d+)$", whole, re.M)


def groups():
    place = grouped()
    text = told("a group", place, *group(7), "jobs")
    ids, killed = made(text)
    check("two are made and one is killed", len(ids) == 2 and len(killed) == 1 and text.count("held ") == 3, text)
    check("all three are told later", ["job %d" % n for n in (1, 2, 3)] == re.findall(r"^job \d", text, re.M) and text.endswith(" killed\nok\n"), text)
    check("the killed one isn't listed", killed[0] not in told("its dumps", place, "dumpinfo"))
    done = run(place, "scantape -portoffset 2")
    check("a scan finds no dump there", b"found " not in done.stdout and b"refused 7" in done.stdout, done)
    check("an open group is dropped", run(place, *group(7)[:2]).stdout == b"ok\nheld 1\n" and told("behind it", place, "jobs") == "ok\n")


def killed(base, lines, wait, replied=False):
    """A folder like this one, in which a run of these lines was killed so many seconds behind its start, or behind its first reply."""
    place = folder()
    shutil.copytree(base, place, dirs_exist_ok=True)
    program = subprocess.Popen([PROGRAM, "run"], cwd=place, stdin=subprocess.PIPE, stdout=open(path(place, "told"), "wb"))
    try:
        program.stdin.write(text(lines))
        program.stdin.flush()
    except BrokenPipeError:
        pass
    while replied and program.poll() is None and os.path.getsize(path(place, "told")) == 0:
        time.sleep(0.005)
    time.sleep(wait)
    program.kill()
    program.wait()
    try:
        program.stdin.close()
    except BrokenPipeError:
        pass
    return place


def with_journal(place, log):
    """Makes these bytes the journal's, as its file has them."""
    with open(path(place, "media", "journal"), "wb") as file:
        slot = b"\1" + bytes(7) + (8192).to_bytes(8, "big") + len(log).to_bytes(8, "big")
        file.write(slot + bytes(8192 - len(slot)) + log)


def group_kills(runs):
    base, whole = grouped(), None
    told_in_all = 0
    for number in range(runs):
        place = killed(base, group(number) + group(number + 1) + group(number + 2), 0.02 + random.random() * 0.3)
        ids, _ = made(open(path(place, "told")).read())
        told_in_all += len(ids)
        listed = re.findall(r"^dump (\d+) ", told("kill %d: the journal opens" % number, place, "dumpinfo -ndumps 99"), re.M)
        check("kill %d: each told dump is listed" % number, set(ids) <= set(listed), (ids, listed))
        os.remove(path(place, "media", "journal"))
        done = run(place, *("addhost -tapehost th -portoffset %d" % port for port in PORTS), *("scantape -dbadd -portoffset %d" % port for port in PORTS), "dumpinfo -ndumps 99")
        found = re.findall(r"^dump (\d+) ", done.stdout.decode(), re.M)
        check("kill %d: each listed dump is on its tapes" % number, set(listed) <= set(found), (listed, found, done))
        if ids:
            whole = whole or holds(place, "user.b")
            told("kill %d: it is restored" % number, place, "volrestore -server fs1 -partition vicepa -volume user.b -extension .r")
            check("kill %d: as it was" % number, holds(place, "user.b.r") == whole)
        shutil.rmtree(place)
    print("killed %d times in groups: %d dumps told" % (runs, told_in_all))


# ---- a saved database, and kills in the midst of saves


def log_in(place, name):
    """The log in a file, by its two slots."""
    file, good = contents(place, name), []
    for at in (0, 4096) if len(file) >= 8192 else ():
        start, length = (int.from_bytes(file[at + k : at + k + 8], "big") for k in (8, 16))
        if file[at] == 1 and file[at + 1] < 3 and 8192 <= start and start + length <= len(file):
            good.append((file[at + 1], file[start : start + length]))
    return b"" if not good else good[-1][1] if len(good) == 1 or good[1][0] == (good[0][0] + 1) % 3 else good[0][1]


def record(kind, front=b""):
    return bytes([kind]) + front + bytes(16384 - len(front))


def save_of(log):
    """The records of a tape on which this log is saved, and which had no permanent name."""
    save = b"Ubik_db_dump.1"
    records = [record(0, b"AFST\1\1\0\0" + bytes(8) + bytes([len(save)]) + save), record(1), record(0, b"AFSB\1\1\0\0" + len(log).to_bytes(8, "big"))]
    for at in range(0, len(log), 16352):
        piece = log[at : at + 16352]
        records.append(record(0, b"AFSB\1\2\0\0" + len(piece).to_bytes(4, "big") + bytes(20) + piece))
    return b"".join(records) + record(1)


def shortest(place):
    """The log that a checkpoint leaves, which is made of a copy."""
    copy = folder()
    shutil.copytree(place, copy, dirs_exist_ok=True)
    told("a checkpoint", copy, "checkpoint")
    log = log_in(copy, "journal")
    shutil.rmtree(copy)
    return log


def saves():
    place = dumped()
    told("more changes", place, "addvolset -name x", "delvolset -name x")
    journal, log = contents(place, "journal"), shortest(place)
    text = told("it is saved", place, "savedb")
    check("its length and slot are told", text == "saved %d bytes slot 2\nok\n" % len(log), (text, len(log)))
    check("the tape has it", log_in(place, "slot2") == save_of(log))
    check("the journal is as it was", contents(place, "journal") == journal)
    full, mon = sorted(re.findall(r"^dump (\d+) ", told("its dumps", place, "dumpinfo"), re.M))
    groups = "dumpset %s dumps 1\n" % full, "dumpset %s dumps 1\n" % mon
    check("no chain is broken", told("it is verified", place, "dbverify") == "".join(groups) + "verified 2 broken 0\nok\n")
    told("the full dump is forgotten", place, "deletedump -dumpid " + full)
    text = told("it is verified again", place, "dbverify")
    check("a chain is broken", text == groups[1] + "broken %s user.a at %s\nverified 1 broken 1\nok\n" % (mon, full), text)
    log = shortest(place)
    text = told("it is saved again", place, "savedb", "readlabel -slot 2")
    check("the tape has the later one", log_in(place, "slot2") == save_of(log) and text.startswith("saved %d bytes slot 2\n" % len(log)), text)
    done = run(place, "scantape -dbadd")
    check("a scan passes it over", b"refused 70 BadTape 2 2\n" in done.stdout and ("added %s\n" % full).encode() in done.stdout and done.returncode == 1, done)
    check("no chain is broken then", told("it is verified behind a scan", place, "dbverify").endswith("verified 2 broken 0\nok\n"))


def entry(pattern):
    return b"\3\1s\0\0" + len(pattern).to_bytes(2, "big") + pattern


def save_kills(runs):
    base = tapes(1)
    first = b"\1\1s" + b"".join(entry(b"%0100d" % number) for number in range(4000))
    host = log_in(base, "journal")
    log = first + host
    with_journal(base, log)
    saved_after = lambda count: save_of(first + b"".join(b"\1\5t%04d" % k for k in range(count)) + host)
    told_in_all = fronts = 0
    for number in range(runs):
        place = killed(base, ["listhosts"] + [line for k in range(400) for line in ("addvolset -name t%04d" % k, "savedb")], random.random() * 0.4, replied=True)
        done = open(path(place, "told"), "rb").read().count(b" bytes slot 0\nok\n")
        there = sum(line.startswith("set t") for line in sets(place))
        tape = log_in(place, "slot0")
        whole = tape == (saved_after(done) if done else b"")
        front = there == done + 1 and saved_after(there).startswith(tape)
        check("kill %d: the tape has the last save, or a front of the next one" % number, there in (done, done + 1) and (whole or front), (done, there, len(tape)))
        told_in_all, fronts = told_in_all + done, fronts + (not whole)
        told("kill %d: it is saved again" % number, place, "savedb")
        check("kill %d: whole" % number, log_in(place, "slot0") == saved_after(there))
        shutil.rmtree(place)
    print("killed %d times in saves: %d saves told, %d fronts of saves left" % (runs, told_in_all, fronts))


# ---- a saved database is read back, and kills in the midst of that


LOOKS = ("listvolsets", "listdumps", "listhosts", "dumpinfo")


def read_back():
    place = dumped()
    whole, log = holds(place), shortest(place)
    told("it is saved", place, "savedb")
    tape, seen = contents(place, "slot2"), told("what is saved", place, *LOOKS)
    lose(place)
    check("its host comes first", run(place, "restoredb").stdout == b"refused 31 NoSuchPort 0\n")
    text = told("it is read back", place, HOST, "restoredb", RESTORE)
    check("both dumps are there", re.fullmatch("ok\ndatabase dumps 2\nok\nrestored user.a from [0-9]+ chain 2\nok\n", text), text)
    check("the volume is as it was", holds(place) == whole)
    check("sets, levels, hosts and dumps are as they were", told("what is read", place, *LOOKS) == seen)
    check("the tape is as it was", contents(place, "slot2") == tape)
    check("the journal has the host and the saved changes", log_in(place, "journal") == b"\x08\2th\0\0" + log)
    check("once is enough", run(place, "restoredb").stdout == b"refused 46 DatabaseInUse\n")
    time.sleep(1.1)
    told("a dump behind the save", place, "vos write -volume user.a -vnode 6 -size 5000", "dump -volumeset users -dump /full/mon")
    later = holds(place)
    lose(place)
    text = told("it is read back again", place, HOST, "restoredb")
    check("the later dump isn't there", text == "ok\ndatabase dumps 2\nok\n", text)
    done = run(place, "scantape -dbadd", RESTORE)
    check("a scan adds it", done.returncode == 1 and done.stdout.count(b"added ") == 1 and done.stdout.endswith(b" chain 1\nok\n"), done)
    check("the volume is as it was then", holds(place) == later)
    lose(place)
    with open(path(place, "media", "slot2"), "r+b") as file:
        file.seek(8192 + 2 * 16385 + 2)
        file.write(b"X")
    done = run(place, HOST, "restoredb", "listvolsets")
    check("a bad save is refused", done.stdout == b"ok\nrefused 48 BadSave 2 2\nok\n", done)
    check("and changes nothing", log_in(place, "journal") == b"\x08\2th\0\0")


def read_back_kills(runs):
    base = tapes(1)
    host = log_in(base, "journal")
    log = host + b"".join(b"\x08\x1e%030d" % port + port.to_bytes(2, "big") for port in range(1, 500))
    with_journal(base, log)
    told("many hosts are saved", base, "savedb")
    check("they are on the tape", log_in(base, "slot0") == save_of(log))
    with_journal(base, host)
    tape, told_in_all = contents(base, "slot0"), 0
    for number in range(runs):
        place = killed(base, ["listhosts"] + ["restoredb"] * 1000, random.random() * 0.4, replied=True)
        done = open(path(place, "told"), "rb").read().count(b"database dumps 0\nok\n")
        journal = log_in(place, "journal")
        there = (len(journal) - len(host)) // len(log)
        check("kill %d: each save that was read back is in the journal whole" % number, there in (done, done + 1) and journal == host + there * log, (done, there, len(journal)))
        check("kill %d: the tape is as it was" % number, contents(place, "slot0") == tape)
        again = told("kill %d: it is read back again" % number, place, "restoredb", "listhosts")
        check("kill %d: all hosts are there" % number, again.count("host ") == 500, again[-80:])
        told_in_all += done
        shutil.rmtree(place)
    print("killed %d times in reading back: %d told" % (runs, told_in_all))


scripts()
streams()
opening()
words()
terminals()
pieces()
full()
cell()
links()
changed()
rights()
interrupted()
order_of_names()
many_images()
lost()
first_version()
kills(int(os.environ.get("KILLS", "200")))
groups()
group_kills(int(os.environ.get("KILLS", "200")) // 2)
saves()
save_kills(int(os.environ.get("KILLS", "200")) // 2)
read_back()
read_back_kills(int(os.environ.get("KILLS", "200")) // 5)
finish()
