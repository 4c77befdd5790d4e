#!/usr/bin/env python3
"""Tests of the files in a real folder: standard streams that are closed, refused opens, a second program, a full device,
programs killed in the midst, what is synced before a line is told, and images of volumes against a model.

The first argument is the program of crates/bench_tools. It works in folders of its own below the second one (else a new one)."""
import os
import random
import re
import shutil
import signal
import subprocess
import sys
import time

sys.dont_write_bytecode = True
from checks import PROGRAM, check, finish, folder, shell

random.seed(7)


def journal(place):
    with open(os.path.join(place, "media", "journal"), "rb") as file:
        return file.read()


def run(place, *words, given=b"", **more):
    return subprocess.run([PROGRAM, "probe", *words], cwd=place, input=given, capture_output=True, timeout=120, **more)


# ---- standard streams


def streams():
    lines = b"one\ntwo\n"
    for closed, status, kept in [
        ("<&-", 3, b""),
        (">&-", 9, b"one\n"),
        ("2>&-", 0, lines),
        ("<&- >&-", 3, b""),
        (">&- 2>&-", 9, b"one\n"),
        ("<&- >&- 2>&-", 3, b""),
        ("> /dev/full", 9, b"one\n"),
        ("< .", 3, b""),
    ]:
        for _ in range(2):
            place = folder()
            done = shell(place, '"$P" probe ' + closed, lines)
            check("streams " + closed, done.returncode == status and journal(place) == kept, (done, journal(place)))
    place = folder()
    done = shell(place, '(sleep 0.3; "$P" probe; echo $? > status) | true', lines)
    status = open(os.path.join(place, "status")).read().strip()
    check("a broken pipe", status == "9" and journal(place) == b"one\n", (status, journal(place)))


# ---- opening


def refused(name, place, status, says, **more):
    done = run(place, **more)
    text = done.stderr.decode()
    check(name, done.returncode == status and text.startswith("cannot open\n" + says) and done.stdout == b"", done)


def opening():
    place = folder()
    open(os.path.join(place, "media"), "w").close()
    refused("media is a file", place, 4, "media/journal: Not a directory")
    place = folder()
    os.makedirs(os.path.join(place, "media", "slot7"))
    refused("slot7 is a folder", place, 4, "media/slot7: ")
    place = folder()
    os.makedirs(os.path.join(place, "media", "journal"))
    refused("the journal is a folder", place, 4, "media/journal: ")
    place = folder()
    open(os.path.join(place, "cell"), "w").close()
    refused("cell is a file", place, 5, "cell: ")
    place = folder()
    os.mkdir(os.path.join(place, "tapeconfig"))
    refused("tapeconfig is a folder", place, 11, "tapeconfig: ")
    shutil.rmtree(os.path.join(place, "cell"))
    open(os.path.join(place, "cell"), "w").close()
    refused("the cell comes before tapeconfig", place, 5, "cell: ")
    shutil.rmtree(os.path.join(place, "media"))
    open(os.path.join(place, "media"), "w").close()
    refused("the media come before the cell", place, 4, "media/journal: ")
    place = folder()
    os.mkdir(os.path.join(place, "media"))
    os.symlink("nothing", os.path.join(place, "media", "slot7"))
    check("a slot that links to nothing isn't here", run(place).returncode == 0)
    place = folder()
    os.mkdir(os.path.join(place, "media"))
    for slot in range(256):
        open(os.path.join(place, "media", "slot%d" % slot), "w").close()
    check("256 slots", run(place, given=b"x\n").stdout == b"x\n")
    done = shell(place, 'ulimit -n 200; "$P" probe', b"x\n")
    check("too few files may be open", done.returncode == 4 and done.stderr.startswith(b"cannot open\nmedia/slot"), done)
    if os.getuid() != 0:
        place = folder()
        os.mkdir(os.path.join(place, "media"), 0o500)
        refused("a folder without leave to write", place, 4, "media/journal: ")


def second():
    place = folder()
    first = subprocess.Popen([PROGRAM, "probe"], cwd=place, stdin=subprocess.PIPE, stdout=subprocess.PIPE)
    first.stdin.write(b"one\n")
    first.stdin.flush()
    check("the first program works", first.stdout.readline() == b"one\n")
    refused("a second program is refused", place, 4, "media: ", given=b"two\n")
    first.stdin.close()
    check("the first program ends", first.wait() == 0)
    first.stdout.close()
    check("then another one works", run(place, given=b"three\n").stdout == b"three\n")
    check("both wrote", journal(place) == b"one\nthree\n", journal(place))


def limits():
    place = folder()
    done = shell(place, 'ulimit -f 4; "$P" probe; exit $?', b"".join(b"%063d\n" % i for i in range(1000)))
    told, kept = done.stdout, journal(place)
    check("the file size limit ends it by a signal", done.returncode == 128 + signal.SIGXFSZ, done.returncode)
    check("what was told is kept", kept.startswith(told) and len(told) > 0, (len(told), len(kept)))
    place = folder()
    done = subprocess.run(["mount", "-t", "tmpfs", "-o", "size=64k", "tmpfs", place], capture_output=True)
    if done.returncode != 0:
        print("not tried: a full device (no leave to mount)")
        return
    try:
        done = run(place, given=b"".join(b"%0499d\n" % i for i in range(1000)))
        check("a full device", done.returncode == 4 and journal(place).startswith(done.stdout), done.returncode)
        check("most of it was told", len(done.stdout) > 20000, len(done.stdout))
    finally:
        subprocess.run(["umount", place])


# ---- kills


def kills(runs):
    place = folder()
    told_in_all = 0
    kept = b""
    for i in range(runs):
        given = b"".join(b"%d %d\n" % (i, k) for k in range(400))
        program = subprocess.Popen([PROGRAM, "probe"], cwd=place, stdin=subprocess.PIPE, stdout=open(os.path.join(place, "told"), "wb"))
        try:
            program.stdin.write(given)
            program.stdin.flush()
        except BrokenPipeError:
            pass
        time.sleep(random.random() * 0.25)
        program.kill()
        program.wait()
        try:
            program.stdin.close()
        except BrokenPipeError:
            pass
        told = open(os.path.join(place, "told"), "rb").read()
        now = journal(place) if os.path.exists(os.path.join(place, "media", "journal")) else b""
        more = now[len(kept):]
        check("kill %d: what stood there stays" % i, now.startswith(kept))
        check("kill %d: each told line is in the journal" % i, more.startswith(told) and given.startswith(more), (told[-20:], more[-20:]))
        told_in_all += told.count(b"\n")
        kept = now
    print("killed %d times: %d lines told, %d in the journal" % (runs, told_in_all, kept.count(b"\n")))


# ---- what is synced


def synced():
    if shutil.which("strace") is None:
        print("not tried: what is synced (no strace)")
        return
    place = folder()
    trace = os.path.join(place, "trace")
    calls = "openat,open,mkdir,mkdirat,fsync,fdatasync,pwrite64,write,rename,renameat,renameat2,unlink,unlinkat,close"
    done = subprocess.run(["strace", "-f", "-o", trace, "-e", "trace=" + calls, PROGRAM, "probe"], cwd=place, input=b"one\ntwo\nthree\n", capture_output=True)
    check("traced", done.stdout == b"one\ntwo\nthree\n", done)
    opened, dirty, unsynced, order = {}, set(), {"media", "media/journal", "cell"}, []
    for line in open(trace):
        line = re.sub(r"^\d+ +", "", line)
        if match := re.match(r'open(?:at)?\((?:AT_FDCWD, )?"([^"]*)".* = (\d+)$', line):
            opened[match[2]] = match[1].rstrip("/")
        elif match := re.match(r'mkdir(?:at)?\((?:AT_FDCWD, )?"([^"]*)".* = 0$', line):
            dirty.add("name of " + match[1])
        elif match := re.match(r"f(?:data)?sync\((\d+)\) += 0$", line):
            path = opened[match[1]]
            dirty.discard("bytes of " + path)
            order.append("sync " + path)
            for name in [d for d in dirty if d.startswith("name of ") and (os.path.dirname(d[8:]) or ".") == path]:
                dirty.discard(name)
        elif match := re.match(r"pwrite64\((\d+),", line):
            dirty.add("bytes of " + opened[match[1]])
        elif match := re.match(r"write\(1, .* = (\d+)$", line):
            order.append("tell")
            check("nothing waits for the disk where a line is told", not dirty, dirty)
        if 'media/journal"' in line and "O_CREAT" in line:
            dirty.add("name of media/journal")
    before = order[: order.index("tell")]
    check("the names and the journal are on the disk before", {"sync .", "sync media", "sync media/journal"} <= set(before), before)


# ---- images


def image(place, server, partition, name):
    return os.path.join(place, "cell", server, partition, name + ".vol")


def listed(place):
    done = run(place, "list")
    check("list", done.returncode == 0, done)
    return done.stdout.decode().split("\n")[:-1]


def put(place, server, partition, name, data):
    path = image(place, server, partition, name)
    os.makedirs(os.path.dirname(path), exist_ok=True)
    with open(path, "wb") as file:
        file.write(data)


def images():
    place = folder()
    check("create", run(place, "create", "s1", "a", "v1", "1000").returncode == 0)
    good = open(image(place, "s1", "a", "v1"), "rb").read()
    check("a new volume", listed(place) == ["v1 s1 a good 536870912 0 1000"], listed(place))
    rows = [
        ("whole", good, "good 536870912 0 1000"),
        ("empty", b"", "bad 0"),
        ("one byte", good[:1], "bad 1"),
        ("cut by one", good[:-1], "bad %d" % (len(good) - 1)),
        ("grown", good + b"\0", "bad 0"),
        ("twice", good + good, "bad 0"),
        ("first byte", b"\x02" + good[1:], "bad 0"),
        ("second byte", good[:1] + b"\0" + good[2:], "bad 1"),
        ("last byte", good[:-1] + b"\x6f", "bad %d" % (len(good) - 1)),
        ("another name", good.replace(b"nv1\0", b"nv2\0"), "bad 0"),
        ("large", good + bytes(20_000_000), "bad 0"),
        ("zeros", bytes(20_000_000), "bad 0"),
    ]
    for name, data, says in rows:
        put(place, "s1", "a", "v1", data)
        check("image " + name, listed(place) == ["v1 s1 a " + says], listed(place))
    put(place, "s1", "a", "v1", good)
    put(place, "s0", "b", "v1", good)
    check("two places are one bad entry, the first path's", listed(place) == ["v1 s0 b bad 0"], listed(place))
    put(place, "s0", "b", "v1", good[:-1])
    check("the first path's place", listed(place) == ["v1 s0 b bad %d" % (len(good) - 1)], listed(place))
    check("a bad image refuses a write", run(place, "write", "v1", "2", "5", "x").stdout == b"the image is bad at byte %d\n" % (len(good) - 1))
    check("remove takes all of them", run(place, "remove", "v1").returncode == 0 and listed(place) == [])
    check("no file of them is left", not os.path.exists(image(place, "s1", "a", "v1")) and not os.path.exists(image(place, "s0", "b", "v1")))
    for server, partition, name in [("s", "a", "-v"), ("s", "a", "."), ("s", "a", ""), ("-s", "a", "v"), ("s", "a b", "v"), ("s", "a", "v" * 32)]:
        put(place, server, partition, name, good)
    os.makedirs(image(place, "s", "a", "folder"))
    put(place, "s", "a", "x", good)
    os.rename(image(place, "s", "a", "x"), image(place, "s", "a", "x")[:-1])
    open(os.path.join(place.encode(), b"cell", b"s", b"a", b"\xff.vol"), "wb").close()
    os.symlink("nothing", image(place, "s", "a", "link"))
    open(os.path.join(place, "cell", "file"), "w").close()
    check("what is no image is passed over", listed(place) == [], listed(place))
    before = sorted(os.listdir(place)), sorted(os.listdir(os.path.join(place, "cell")))
    for words in [("..", "a", "v"), ("s", "..", "v"), (".", "a", "v"), ("s", ".", "v"), ("s", "a", "."), ("..", "..", "v")]:
        done = run(place, "create", *words, "5")
        check("dots lead nowhere: " + " ".join(words), done.returncode == 5, done)
    check("nothing was made outside", before == (sorted(os.listdir(place)), sorted(os.listdir(os.path.join(place, "cell")))))


class Model:
    """Volumes by name: place, id, type, creation date, and the time of each vnode."""

    def __init__(self):
        self.all = {}

    def free(self):
        greatest = max([v["id"] for v in self.all.values()], default=0)
        return 536870912 if greatest < 536870912 else 536870912 + 3 * ((greatest - 536870912) // 3 + 1)

    def lines(self):
        return [
            "%s %s %s good %d %d %d" % (name, *v["place"], v["id"], v["kind"], max([v["made"], *v["times"].values()]))
            for name, v in sorted(self.all.items())
        ]

    def create(self, server, partition, name, now):
        if name in self.all:
            return "the volume exists"
        self.all[name] = {"place": (server, partition), "id": self.free(), "kind": 0, "made": now, "times": {1: now}}

    def writable(self, name):
        return name in self.all and self.all[name]["kind"] == 0

    def write(self, name, number, now):
        if not self.writable(name):
            return "there is no such volume"
        if number == 0:
            return "a limit would be passed"
        self.all[name]["times"][number] = now

    def rmvnode(self, name, number, now):
        if not self.writable(name):
            return "there is no such volume"
        if number not in self.all[name]["times"]:
            return "the volume has no such vnode"
        del self.all[name]["times"][number]

    def backup(self, name, now):
        if not self.writable(name):
            return "there is no such volume"
        if len(name) + 7 > 31:
            return "a limit would be passed"
        volume = self.all[name]
        old = self.all.get(name + ".backup")
        number = old["id"] if old else self.free()
        self.all[name + ".backup"] = dict(volume, id=number, kind=2, made=now, times=dict(volume["times"]))

    def remove(self, name):
        if name not in self.all:
            return "there is no such volume"
        both = self.all[name]["kind"] == 0 and self.all.get(name + ".backup", {}).get("kind") == 2
        del self.all[name]
        if both:
            del self.all[name + ".backup"]

    def move(self, server, partition, at):
        if at >= len(self.all):
            return "there is no such volume"
        name = sorted(self.all)[at]
        self.all[name] = dict(self.all[name], place=(server, partition))


def modelled(calls):
    place, model = folder(), Model()
    names = ["v1", "v2", "w", "v1.backup", "z" * 25]
    for i in range(calls):
        now = 1000 + i
        name, number = random.choice(names), random.choice([0, 1, 2, 3, 4])
        server, partition = random.choice(["s1", "s2"]), random.choice(["a", "b"])
        verb = random.choice(["create", "create", "write", "write", "rmvnode", "backup", "backup", "remove", "move"])
        if verb == "create":
            words, due = (server, partition, name, now), model.create(server, partition, name, now)
        elif verb == "write":
            words, due = (name, number, now, "x" * random.randrange(3000)), model.write(name, number, now)
        elif verb == "rmvnode":
            words, due = (name, number, now), model.rmvnode(name, number, now)
        elif verb == "backup":
            words, due = (name, now), model.backup(name, now)
        elif verb == "remove":
            words, due = (name,), model.remove(name)
        else:
            at = random.randrange(6)
            words, due = (server, partition, at), model.move(server, partition, at)
        done = run(place, verb, *map(str, words))
        says = (due + "\n").encode() if due else b""
        check("call %d %s" % (i, verb), done.stdout == says and done.returncode == (1 if due else 0), (words, due, done))
        if listed(place) != model.lines():
            check("call %d %s: the list" % (i, verb), False, (words, listed(place), model.lines()))
            return
    left = [f for _, _, files in os.walk(os.path.join(place, "cell")) for f in files if not f.endswith(".vol")]
    check("nothing is left beside the images", left == [], left)


def cell_kills(runs):
    place = folder()
    run(place, "create", "s1", "a", "v", "1000")
    ended = 0
    for i in range(runs):
        words = ["move", random.choice(["s1", "s2", "s3"]), random.choice(["a", "b"]), "0"]
        if random.random() < 0.5:
            words = ["write", "v", "2", str(2000 + i), "x" * 3000]
        program = subprocess.Popen([PROGRAM, "probe", *words], cwd=place, stdout=subprocess.DEVNULL)
        time.sleep(random.random() * 0.05)
        program.kill()
        ended += program.wait() == 0
        lines = listed(place)
        check("kill %d %s: one good image" % (i, words[0]), len(lines) == 1 and lines[0].startswith("v ") and " good 536870912 0 " in lines[0], lines)
    print("killed %d times in a move or a write: %d had ended before" % (runs, ended))


for test in [streams, opening, second, limits, lambda: kills(200), synced, images, lambda: modelled(300), lambda: cell_kills(120)]:
    test()
finish()
