#!/usr/bin/env python3
"""Volumes of a real OpenAFS cell go through `afsbackup run` and back: they are dumped to tapes three times behind changes, journal,
images and real volumes are lost, the tapes are scanned and the volumes restored, into the cell too. What comes back is compared: each
vnode with all its fields, and each file as a client sees it. Then examples/nightly.sh and examples/restore.sh are run over the cell.

    openafs.py PROGRAM [FOLDER]

PROGRAM is afsbackup. What was made is left in FOLDER (else in a new folder, which goes at the end where nothing differs). It needs
root and these packages of Debian 12, and installs nothing:

    openafs-dbserver openafs-fileserver openafs-client openafs-krb5 openafs-fuse fuse iproute2 util-linux

The servers (vlserver, ptserver, fileserver, volserver) and the client (afsd.fuse) run for this script alone: in a network with `lo`
only, with folders of their own bound over the packages' places, and as processes that end with it. About four minutes, most of
them waits for the next minute, since `vos dump -time` and `volrestore -date` know whole minutes only.

The exit status is 0 where nothing differs, 1 where something does, 2 where the cell couldn't be set up."""
import hashlib
import os
import random
import re
import shutil
import signal
import socket
import stat
import struct
import subprocess
import sys
import tempfile
import time

CELL, SERVER, ADDRESS, PART = "test.cell", "afs1", "127.1.0.1", "vicepa"
HOST = "addhost -tapehost %s -portoffset 0" % SERVER
RESTORE = "volrestore -server %s -partition %s -volume " % (SERVER, PART)
BIN = "/usr/lib/openafs/"
TOOLS = {
    "openafs-dbserver": [BIN + "vlserver", BIN + "ptserver", "/usr/bin/pts"],
    "openafs-fileserver": [BIN + "fileserver", BIN + "volserver", BIN + "salvager", "/usr/sbin/voldump"],
    "openafs-client": ["/usr/bin/vos", "/usr/bin/udebug", "/usr/bin/restorevol"],
    "openafs-krb5": ["/usr/sbin/asetkey"],
    "openafs-fuse": ["/usr/sbin/afsd.fuse"],
    "fuse": ["/usr/bin/fusermount"],
    "iproute2": ["/usr/sbin/ip", "/sbin/ip"],
    "util-linux": ["/usr/bin/unshare"],
}

counts = {"same": 0, "differ": 0, "known": 0}


def note(text):
    print(time.strftime("%H:%M:%S ") + text, flush=True)


def check(name, holds, more=""):
    counts["same" if holds else "differ"] += 1
    if not holds:
        print("DIFFERS: %s %s" % (name, more), flush=True)
    return holds


def known(name, holds, more=""):
    """What is known not to go round. It is told, and is no difference; where it has gone away that is told."""
    counts["known"] += 1
    print(("known: %s %s" if holds else "NO LONGER SO: %s %s") % (name, more), flush=True)


def give_up(text):
    print("openafs.py: " + text, file=sys.stderr)
    sys.exit(2)


# ---- dump streams, read by hand (AFS volume dump format, version 1)

HEADER = {"i": 4, "v": 4, "n": 0, "s": 1, "b": 1, "u": 4, "t": 1, "p": 4, "c": 4, "q": 4, "m": 4, "d": 4, "f": 4, "a": 4, "o": 4,
          "C": 4, "A": 4, "U": 4, "E": 4, "B": 4, "O": 0, "M": 0, "W": -1, "D": 4, "Z": 4, "V": 4}
VNODE = {"t": 1, "l": 2, "v": 4, "m": 4, "a": 4, "o": 4, "g": 4, "b": 2, "p": 4, "s": 4, "A": 192, "f": -2, "h": -3}
FILE, DIRECTORY, SYMLINK = 1, 2, 3
KINDS = {FILE: "file", DIRECTORY: "dir", SYMLINK: "link"}


class Stream:
    """A whole dump stream. `vnodes` are [number, uniquifier, fields or None]; fields are dicts by tag, in the stream's order."""

    def __init__(self, data):
        self.data, self.at = data, 0
        self.want(bytes.fromhex("01b3a1132200000001"))
        self.dump = {}
        while self.data[self.at] != 2:
            tag = self.tag()
            if tag == "v":
                self.dump[tag] = self.number(4)
            elif tag == "n":
                self.dump[tag] = self.string()
            elif tag == "t":
                self.want(b"\0\2")
                self.dump[tag] = (self.number(4), self.number(4))
            else:
                self.bad()
        self.at += 1
        self.header = self.fields(HEADER)
        self.vnodes = []
        while self.data[self.at] == 3:
            self.at += 1
            number, uniquifier = self.number(4), self.number(4)
            fields = self.fields(VNODE)
            if "h" in fields:
                fields["f"] = fields.pop("h")
            self.vnodes.append([number, uniquifier, fields or None])
        self.want(bytes.fromhex("043a214b6e"))
        if self.at != len(data):
            self.bad()

    def bad(self):
        raise ValueError("no dump stream at %d" % self.at)

    def want(self, text):
        if self.data[self.at:self.at + len(text)] != text:
            self.bad()
        self.at += len(text)

    def tag(self):
        self.at += 1
        return chr(self.data[self.at - 1])

    def number(self, size):
        self.at += size
        return int.from_bytes(self.data[self.at - size:self.at], "big")

    def string(self):
        end = self.data.index(0, self.at)
        text, self.at = self.data[self.at:end], end + 1
        return text

    def run(self, size):
        if self.at + size > len(self.data):
            self.bad()
        self.at += size
        return self.data[self.at - size:self.at]

    def fields(self, forms):
        found = {}
        while self.data[self.at] > 4:
            tag = self.tag()
            form = forms.get(tag)
            if form is None or tag in found:
                self.bad()
            if form == 0:
                found[tag] = self.string()
            elif form == -1:
                found[tag] = tuple(self.number(4) for _ in range(self.number(2)))
            elif form == -2:
                found[tag] = self.run(self.number(4))
            elif form == -3:
                found[tag] = self.run(self.number(8))
            elif form == 192:
                found[tag] = self.run(192)
            else:
                found[tag] = self.number(form)
        return found

    @staticmethod
    def spelled(forms, found):
        out = []
        for tag, value in found.items():
            form = forms[tag]
            out.append(tag.encode())
            if form == 0:
                out.append(value + b"\0")
            elif form == -1:
                out.append(struct.pack(">H%dI" % len(value), len(value), *value))
            elif form == -2:
                out.append(struct.pack(">I", len(value)) + value)
            elif form == 192:
                out.append(value)
            else:
                out.append(value.to_bytes(form, "big"))
        return b"".join(out)

    def text(self):
        out = [bytes.fromhex("01b3a1132200000001"), b"v", struct.pack(">I", self.dump["v"]), b"n", self.dump["n"], b"\0t\0\2",
               struct.pack(">II", *self.dump["t"]), b"\2", self.spelled(HEADER, self.header)]
        for number, uniquifier, fields in self.vnodes:
            out.append(struct.pack(">BII", 3, number, uniquifier) + self.spelled(VNODE, fields or {}))
        out.append(bytes.fromhex("043a214b6e"))
        return b"".join(out)

    def told(self):
        """The lines of `afsbackup examine`."""
        lines = ["volume %s %d from %d to %d" % (self.dump["n"].decode(), self.dump["v"], *self.dump["t"])]
        for number, uniquifier, fields in self.vnodes:
            if fields is None:
                lines.append("kept %d %d" % (number, uniquifier))
            else:
                lines.append("%s %d %d %d %d" % (KINDS[fields["t"]], number, uniquifier, len(fields.get("f", b"")), fields.get("s", 0)))
        return lines

    def contents(self):
        return {(number, uniquifier): fields for number, uniquifier, fields in self.vnodes}


def read_stream(path):
    with open(path, "rb") as file:
        return Stream(file.read())


def same_vnodes(name, one, other):
    """Every vnode with every field: kind, links, data version, times, author, owner, group, mode, parent, access list, data."""
    a, b = one.contents(), other.contents()
    told = []
    for key in sorted(set(a) | set(b)):
        if key not in a or key not in b:
            told.append("vnode %d/%d only in %s" % (*key, "the first" if key in a else "the second"))
        elif a[key] != b[key]:
            if a[key] is None or b[key] is None:
                told.append("vnode %d/%d by number alone in one" % key)
                continue
            tags = [t for t in sorted(set(a[key]) | set(b[key])) if a[key].get(t) != b[key].get(t)]
            told.append("vnode %d/%d differs in %s" % (*key, " ".join(tags)))
    return check(name, not told, "; ".join(told[:5]))


def same_header(name, one, other, but):
    tags = [t for t in HEADER if one.header.get(t) != other.header.get(t) and t not in but]
    return check(name, not tags, ["%s: %r and %r" % (t, one.header.get(t), other.header.get(t)) for t in tags])


# ---- the cell


def run(*words, given=None, timeout=300, cwd=None):
    words = [str(word) for word in words]
    return subprocess.run(words, input=given, stdout=subprocess.PIPE, stderr=subprocess.STDOUT, timeout=timeout, cwd=cwd)


def must(*words, **more):
    done = run(*words, **more)
    if done.returncode:
        give_up("%s: status %d\n%s" % (" ".join(str(w) for w in words), done.returncode, done.stdout.decode(errors="replace")))
    return done.stdout


def until(what, holds, seconds=60):
    for _ in range(seconds * 2):
        try:
            if holds():
                return
        except subprocess.TimeoutExpired:
            pass
        time.sleep(0.5)
    give_up("no " + what)


class Cell:
    def __init__(self, place):
        self.place, self.servers, self.client = place, [], False
        self.log = open(self.path("servers.log"), "wb")

    def path(self, *names):
        return os.path.join(self.place, *names)

    def vos(self, *words):
        return must("vos", *words, "-localauth", timeout=300)

    def serve(self, name, *words):
        self.servers.append(subprocess.Popen([BIN + name, *words], stdin=subprocess.DEVNULL, stdout=self.log, stderr=self.log))

    def start(self):
        must("ip", "link", "set", "lo", "up")
        must("ip", "addr", "add", ADDRESS + "/8", "dev", "lo")     # OpenAFS takes no address of 127.0.0.0/16
        socket.sethostname(SERVER)
        with open(self.path("hosts"), "w") as file:
            file.write("127.0.0.1 localhost\n%s %s %s.%s\n" % (ADDRESS, SERVER, SERVER, CELL))
        must("mount", "--bind", self.path("hosts"), "/etc/hosts")
        for name, over in [("etc", "/etc/openafs"), ("db", "/var/lib/openafs/db"), ("local", "/var/lib/openafs/local"),
                           ("log", "/var/log/openafs"), ("partition", "/" + PART)]:
            os.makedirs(self.path(name), exist_ok=True)
            if name == "etc":
                os.makedirs(self.path(name, "server"), exist_ok=True)
            os.makedirs(over, exist_ok=True)
            must("mount", "--bind", self.path(name), over)
        os.makedirs(self.path("mnt"))
        for where in ["/etc/openafs/", "/etc/openafs/server/"]:
            with open(where + "CellServDB", "w") as file:
                file.write(">%s\n%s #%s.%s\n" % (CELL, ADDRESS, SERVER, CELL))
            with open(where + "ThisCell", "w") as file:
                file.write(CELL + "\n")
        with open("/etc/openafs/server/UserList", "w") as file:
            file.write("admin\n")
        with open("/var/lib/openafs/local/NetInfo", "w") as file:
            file.write(ADDRESS + "\n")
        open("/%s/AlwaysAttach" % PART, "w").close()
        key = bytes((b & 254) | (1 - bin(b & 254).count("1") % 2) for b in os.urandom(8))    # a DES key has odd parity
        run("asetkey", "add", "0", key.hex())
        self.serve("vlserver", "-rxbind")
        self.serve("ptserver", "-rxbind")

        def quorum():
            run("vos", "listvldb", "-noauth", timeout=20)              # the first use makes the database
            return all(b"Recovery state 1f" in run("udebug", ADDRESS, port, timeout=20).stdout for port in (7003, 7002))

        until("quorum of the database servers", quorum)
        must("pts", "createuser", "-name", "admin", "-id", "1", "-localauth")
        must("pts", "adduser", "admin", "system:administrators", "-localauth")
        self.serve("fileserver", "-rxbind")
        self.serve("volserver", "-rxbind")
        until("file server", lambda: PART.encode() in run("vos", "listpart", ADDRESS, "-localauth", timeout=20).stdout
              and ADDRESS.encode() in run("vos", "listaddrs", "-localauth", "-noresolve", timeout=20).stdout)

    def start_client(self):
        cache = tempfile.mkdtemp(dir=self.place, prefix="cache")
        with open("/etc/openafs/cacheinfo", "w") as file:
            file.write("%s:%s:200000\n" % (self.path("mnt"), cache))
        must("afsd.fuse", "-dynroot", "-fakestat", "-mountdir", self.path("mnt"), "-cachedir", cache, "-confdir", "/etc/openafs",
             "-blocks", "200000", timeout=60)
        until("client", lambda: run("ls", self.path("mnt", CELL), timeout=20).returncode == 0)
        self.client = True

    def stop_client(self):
        if self.client:
            run("fusermount", "-u", self.path("mnt"))
            self.client = False

    def stop(self):
        self.stop_client()
        for server in reversed(self.servers):
            server.terminate()
        for server in reversed(self.servers):
            try:
                server.wait(20)
            except subprocess.TimeoutExpired:
                server.kill()

    def volume(self, name):
        """The folder in which the client has the volume, in bytes, since names there are bytes."""
        return os.fsencode(self.path("mnt", ".:mount", CELL + ":" + name))

    def dump(self, name, file, *more):
        self.vos("dump", name, "-file", file, *more)
        return read_stream(file)

    def restore(self, name, file, how="full"):
        return run("vos", "restore", ADDRESS, PART, name, "-file", file, "-overwrite", how, "-localauth")

    def edited(self, name, edit):
        """Dumps a volume, edits the stream, and restores it: for what a client without a token may not set."""
        file = self.path("edited.dump")
        stream = self.dump(name, file)
        edit(stream)
        with open(file, "wb") as out:
            out.write(stream.text())
        done = self.restore(name, file)
        if done.returncode:
            give_up("vos restore of %s: %s" % (name, done.stdout.decode()))

    def new_volume(self, name):
        """A volume whose root gives every right to anybody."""
        self.vos("create", ADDRESS, PART, name, "-maxquota", "0")

        def open_root(stream):
            stream.vnodes[0][2]["A"] = access([(ANYBODY, 127)], [])

        self.edited(name, open_root)


ANYBODY, ADMINISTRATORS = -101, -204


def access(positive, negative):
    """An access list: its size, version, number of entries, of positive and of negative ones, and the entries."""
    entries = positive + negative
    text = struct.pack(">IIIII", 20 + 8 * len(entries), 1, len(entries), len(positive), len(negative))
    return (text + b"".join(struct.pack(">iI", who, rights) for who, rights in entries)).ljust(192, b"\0")


# ---- what is in the volumes

SIZES = [0, 1, 16351, 16352, 16353, 65535, 65536, 65537, 1048575, 1048576, 1048577, 16777216]
NAMES = ["n" * 255, "with blanks and\ttab", "-dash", "gr\u00fc\u00dfe", "\u0438\u043c\u044f", "\u65e5\u672c\u8a9e", "\U0001f4be disk", "a\\b",
         'quo"te', "line\nfeed", ".hidden", "e\u0301", "\u00e9"]
random.seed(11)


def put(path, data, mode="wb"):
    with open(path, mode) as file:
        file.write(data)
        settle(file)


def settle(file):
    """The client stores what was written when a file is closed, perhaps behind the close."""
    file.flush()
    try:
        os.fsync(file.fileno())
    except OSError:
        pass


def fill(cell):
    for name in ["home.amy", "proj.many", "proj.sizes", "abcdefghijklmnopqrstu1"]:
        cell.new_volume(name)
    v = cell.volume("home.amy")
    for folder in [b"src", b"src/lib", b"src/lib/deep", b"mail", b"old", b"names", b"closed"]:
        os.mkdir(v + b"/" + folder)
    put(v + b"/hello.txt", b"hello, world\n")
    put(v + b"/src/x.c", b"int main(void) { return 0; }\n")
    put(v + b"/src/lib/blob", random.randbytes(70000))
    os.link(v + b"/hello.txt", v + b"/hello-too.txt")
    os.symlink(b"hello.txt", v + b"/greeting")
    os.symlink(b"l" * 200, v + b"/src/longlink")
    os.symlink(b"#root.cell.", v + b"/cell-root")                   # becomes a mount point below
    for n in range(1, 10):
        put(v + b"/mail/%d" % n, b"From: %d\n" % n)
    for n in range(5):
        put(v + b"/old/%d" % n, b"gone\n")
    for name in NAMES:
        put(v + b"/names/" + os.fsencode(name), os.fsencode(name))
    put(v + b"/names/" + b"latin-\xff\xe4", b"no UTF-8")
    put(v + b"/names/holes", b"")
    with open(v + b"/names/holes", "r+b") as file:
        file.seek(300000)
        file.write(b"end")
        settle(file)
    put(v + b"/looks-like-a-stream", bytes.fromhex("043a214b6e0300000002000000027401" "01b3a1132200000001") * 40)
    for name, mode in [(b"hello.txt", 0o644), (b"src/x.c", 0o4755), (b"mail/3", 0o600), (b"mail/4", 0), (b"mail/5", 0o7777)]:
        os.chmod(v + b"/" + name, mode)

    v = cell.volume("proj.many")
    os.mkdir(v + b"/big")
    for n in range(700):
        put(v + b"/big/a-file-with-a-rather-long-name-%04d" % n, b"%d\n" % n * (n % 7))
    for n in range(60):
        os.mkdir(v + b"/d%02d" % n)
        os.symlink(b"../big/%d" % n, v + b"/d%02d/s" % n)
    for n in range(0, 700, 3):
        os.remove(v + b"/big/a-file-with-a-rather-long-name-%04d" % n)
    for n in range(0, 60, 4):
        os.remove(v + b"/d%02d/s" % n)
        os.rmdir(v + b"/d%02d" % n)

    v = cell.volume("proj.sizes")
    for size in SIZES:
        put(v + b"/%d" % size, random.randbytes(size))

    # what this client may not or can't set: owners, groups, an old time, access lists, a mount point
    def dress(stream):
        number = 0
        for vnode in stream.vnodes:
            fields = vnode[2]
            if fields["t"] == FILE:
                number += 1
                fields["o"] = 1000 + number
                if number % 5 == 0:
                    fields["m"] = 981173106
                if number % 3 == 0:
                    fields["g"] = 2000 + number
            if fields["t"] == DIRECTORY and vnode[0] > 1:
                number += 1
                fields["o"] = 500 + number
                fields["A"] = access([(ADMINISTRATORS, 127), (ANYBODY, 127), (1000 + number, 9)], [(7, 16)] if number % 2 else [])
            if fields["t"] == SYMLINK and fields["f"].endswith(b"#root.cell."):
                fields["f"], fields["b"] = b"#root.cell.", 0o644

    cell.stop_client()
    cell.edited("home.amy", dress)
    cell.start_client()


def change(cell, stage):
    v = cell.volume("home.amy")
    if stage == 1:
        put(v + b"/hello.txt", b"a new line\n", "ab")
        put(v + b"/mail/10", b"new\n")
        os.remove(v + b"/mail/1")
        os.remove(v + b"/mail/2")
        put(v + b"/mail/11", b"takes a number that was freed\n")
        shutil.rmtree(v + b"/old")
        os.mkdir(v + b"/fresh")
        put(v + b"/fresh/f", b"f\n")
        os.rename(v + b"/mail/9", v + b"/src/nine")                    # into another directory
        os.rename(v + b"/names/.hidden", v + b"/names/shown")
        os.chmod(v + b"/mail/8", 0o640)                               # status alone
        os.remove(v + b"/greeting")
        os.symlink(b"mail/10", v + b"/greeting")
        put(v + b"/src/lib/blob", b"")                                # cut to nothing
        v = cell.volume("proj.sizes")
        put(v + b"/65535", b"!", "ab")                                 # over a boundary
        with open(v + b"/1048577", "r+b") as file:                     # in the middle
            file.seek(500000)
            file.write(b"changed")
            settle(file)
        v = cell.volume("proj.many")
        for n in range(1, 700, 30):
            path = v + b"/big/a-file-with-a-rather-long-name-%04d" % n
            if os.path.exists(path):
                put(path, b"again %d\n" % n)
        for n in range(40):
            put(v + b"/big/z%d" % n, b"z")
    else:
        put(v + b"/mail/12", b"the last one\n")
        os.remove(v + b"/mail/10")
        cell.new_volume("home.new")                                    # a volume that the dumps before don't have
        put(cell.volume("home.new") + b"/first", b"first\n")


def seen(cell, name):
    """What a client sees of a volume: for each path its kind, mode, size, time, and its bytes or the target of the link."""
    told = {}

    def walk(path, inner):
        for entry in sorted(os.listdir(path)):
            at, below = path + b"/" + entry, inner + b"/" + entry
            if entry == b"cell-root":
                told[below] = ("mount point", sorted(os.listdir(at)))
                continue
            status = os.lstat(at)
            kind = stat.S_IFMT(status.st_mode)
            more = [kind, stat.S_IMODE(status.st_mode), status.st_size, int(status.st_mtime), status.st_uid, status.st_nlink]
            if stat.S_ISLNK(kind):
                more.append(os.readlink(at))
            elif stat.S_ISREG(kind):
                try:
                    with open(at, "rb") as file:
                        more.append(hashlib.sha256(file.read()).hexdigest())
                except PermissionError:
                    more.append("no right to read it")
            told[below] = tuple(more)
            if stat.S_ISDIR(kind):
                walk(at, below)

    walk(cell.volume(name), b"")
    return told


def same_seen(name, one, other):
    paths = [p for p in sorted(set(one) | set(other)) if one.get(p) != other.get(p)]
    return check(name, not paths, ["%r: %r and %r" % (p, one.get(p), other.get(p)) for p in paths[:3]])


# ---- the program


class Program:
    def __init__(self, program, folder):
        self.program, self.folder = program, folder

    def run(self, *lines):
        script = "".join(line + "\n" for line in lines).encode()
        done = subprocess.run([self.program, "run"], cwd=self.folder, input=script, stdout=subprocess.PIPE, stderr=subprocess.PIPE, timeout=600)
        return done.returncode, done.stdout.decode().splitlines(), done.stderr.decode()

    def examine(self, path):
        with open(path, "rb") as file:
            done = subprocess.run([self.program, "examine"], stdin=file, stdout=subprocess.PIPE, stderr=subprocess.PIPE, timeout=600)
        return done.returncode, done.stdout.decode().splitlines(), done.stderr.decode()

    def image(self, name):
        return os.path.join(self.folder, "cell", SERVER, PART, name + ".vol")


def tape_streams(folder):
    """The streams on the tapes in `media`: (dump, volume's name, from, clone, bytes), by dump and volume."""
    found = {}
    for slot in range(256):
        path = os.path.join(folder, "media", "slot%d" % slot)
        if not os.path.exists(path):
            continue
        with open(path, "rb") as file:
            data = file.read()
        slots = [(data[at + 1],) + struct.unpack(">QQ", data[at + 8:at + 24]) for at in (0, 4096) if len(data) >= 8192 and data[at] == 1]
        if not slots:
            continue
        if len(slots) == 2 and (slots[0][0] + 1) % 3 != slots[1][0]:
            slots.reverse()
        _, start, length = slots[-1]
        for at in range(start, start + length, 16385):
            block = data[at + 1:at + 16385]
            if data[at] != 0 or block[:4] != b"AFST":
                continue
            dump, index, third = struct.unpack(">III", block[8:20])
            if block[5] == 3:
                _, clone, since = struct.unpack(">III", block[20:32])
                name = block[33:33 + block[32]].decode()
                found.setdefault((dump, index), [dump, name, since, clone, []])
            elif block[5] == 4:
                found[dump, index][4].append((third, block[32:32 + third]))
    return [(d, n, s, c, b"".join(piece for _, piece in pieces)) for d, n, s, c, pieces in (found[k] for k in sorted(found))]


def next_minute():
    time.sleep(61 - time.time() % 60)


def minute():
    return time.strftime("%m/%d/%Y %H:%M")


# ---- the circle


def circle(cell, program):
    folder = program.folder
    os.makedirs(os.path.join(folder, "media"))
    os.makedirs(os.path.dirname(program.image("x")))
    for slot in range(8):
        put(os.path.join(folder, "media", "slot%d" % slot), b"")
    put(os.path.join(folder, "tapeconfig"), b"cell %s\n12m 16k slots:0-7 0\n" % CELL.encode())
    real = os.path.join(cell.place, "real")
    os.makedirs(real)
    names = ["abcdefghijklmnopqrstu1", "home.amy", "proj.many", "proj.sizes", "root.cell"]
    levels = ["/full", "/full/mon", "/full/mon/tue"]
    moments, streams, client, dumps = [], [], [], []

    entry = r"addvolentry -name all -server .* -partition .* -volumes .*\.backup"
    status, lines, errors = program.run(HOST, "addvolset -name all", entry, "adddump -dump " + " ".join(levels))
    check("the first script", status == 0 and lines == ["ok"] * 4, (status, lines, errors))

    for stage, level in enumerate(levels):
        if stage:
            next_minute()
            before = minute()
            time.sleep(1)
            change(cell, stage)
            time.sleep(1)
        if stage == 2:
            names = sorted(names + ["home.new"])
        client.append({n: seen(cell, n) for n in names})
        streams.append({})
        note("stage %d: vos backup, vos dump, images, dump of level %s" % (stage, level))
        for name in names:
            cell.vos("backup", name)
            # the read/write volume's image tells when the volume was created, the backup volume's is what is dumped
            for which in [name, name + ".backup"]:
                path = os.path.join(real, "%d.%s" % (stage, which))
                streams[-1][which] = stream = cell.dump(which, path)
                told = program.examine(path)
                check("examine of stage %d's %s" % (stage, which), told == (0, stream.told(), ""), told[0::2])
                shutil.copy(path, program.image(which) + "-new")
                os.rename(program.image(which) + "-new", program.image(which))
            if stage:
                path = os.path.join(real, "%d.%s.since" % (stage, name))
                stream = streams[-1]["since." + name] = cell.dump(name + ".backup", path, "-time", before)
                told = program.examine(path)
                check("examine of what changed in %s until stage %d" % (name, stage), told == (0, stream.told(), ""), told[0::2])
        if not stage:
            sizes = [len(f["f"]) for _, _, f in streams[0]["proj.sizes"].vnodes if f["t"] == FILE]
            check("the client wrote every size", sorted(sizes) == SIZES, sizes)
        moments.append(minute())
        status, lines, errors = program.run("dump -volumeset all -dump " + level + (" -append" if stage == 2 else ""))
        said = re.fullmatch(r"dump (\d+) all\.(\w+) parent (\d+) volumes (\d+) tapes (\d+)", lines[0] if lines else "")
        if not check("dump of stage %d" % stage, status == 0 and said and lines[1:] == ["ok"] and said[2] == level.split("/")[-1]
                     and int(said[3]) == (dumps[-1] if dumps else 0) and int(said[4]) == len(names), (status, lines, errors)):
            return
        dumps.append(int(said[1]))
        print("    " + lines[0])

    note("what stands on the tapes, given to vos restore: a full dump, and the increments over it")
    for at, (dump, name, since, clone, text) in enumerate(tape_streams(folder)):
        path = os.path.join(cell.place, "tape.%d" % at)
        put(path, text)
        stage, base = dumps.index(dump), name[:-len(".backup")]
        stream = Stream(text)
        check("clone time of %s in %d" % (name, dump), clone == streams[stage][name].header["C"], clone)
        whole, new = since == 0, stage == 0 or name not in streams[stage - 1]
        check("%s is whole in %d exactly where it is new" % (name, dump), whole == new, since)
        target = "t." + base[:18]
        done = cell.restore(target, path, "full" if whole else "incremental")
        check("vos restore of %s of %d" % (name, dump), done.returncode == 0, done.stdout.decode())
        back = cell.dump(target, os.path.join(cell.place, "back.dump"))
        same_vnodes("%s behind the streams of stages 0 to %d" % (name, stage), streams[stage][name], back)
        if not whole:
            ours = {key for key, fields in stream.contents().items() if fields is not None}
            theirs = {key for key, fields in streams[stage]["since." + base].contents().items() if fields is not None}
            # What was changed in the very second of the last clone is dumped again; the whole minute of -time is behind it.
            again = {key for key in ours - theirs if stream.contents()[key]["s"] == since}
            check("%s of %d has the vnodes whole that vos dump -time has" % (name, dump), ours == theirs | again, sorted(ours ^ theirs)[:5])
    for name in ["t." + n[:18] for n in names]:
        cell.vos("remove", "-id", name)

    note("journal, images and real volumes are lost")
    os.remove(os.path.join(folder, "media", "journal"))
    shutil.rmtree(os.path.join(folder, "cell"))
    before_loss = {n: seen(cell, n) for n in names}
    cell.stop_client()
    for name in names:
        cell.vos("remove", "-id", name)
        run("vos", "remove", "-id", name + ".backup", "-localauth")

    status, lines, errors = program.run(HOST, "scantape -dbadd")
    added = [line for line in lines if line.startswith("added")]
    check("scan of the tapes", status == 0 and added == ["added %d" % d for d in dumps], (status, lines, errors))

    note("restores to each of the three moments, and into the cell")
    for stage, when in enumerate(moments):
        for name in names:
            if stage < 2 and name == "home.new":
                continue
            end = ".%d" % stage
            # a restored volume's name has at most 31 bytes here, and 22 in OpenAFS
            status, lines, errors = program.run(RESTORE + "%s -date %s -extension %s" % (name, when, end))
            told = ["restored %s from %d chain %d" % (name + end, dumps[stage], 1 if name == "home.new" else stage + 1), "ok"]
            check("volrestore of %s to stage %d" % (name, stage), (status, lines) == (0, told), (status, lines, errors))
            image = program.image(name + end)
            if not os.path.exists(image):
                continue
            wanted, got = streams[stage][name + ".backup"], read_stream(image)
            same_vnodes("image of %s at stage %d" % (name, stage), wanted, got)
            same_header("header of %s at stage %d" % (name, stage), wanted, got, "inptC")
            told = program.examine(image)
            check("examine of the image", told == (0, got.told(), ""), told[0::2])
            for path, where in [(os.path.join(real, "%d.%s.backup" % (stage, name)), "one"), (image, "other")]:
                shutil.rmtree(cell.path(where), ignore_errors=True)
                os.mkdir(cell.path("out"))
                done = run("restorevol", "-file", path, "-dir", cell.path("out"))
                check("restorevol of %s" % path, done.returncode == 0, done.stdout.decode())
                os.rename(cell.path("out"), cell.path(where))          # a mount point comes out as a link that names the folder
            inner = [next(os.scandir(cell.path(where))).path for where in ("one", "other")]
            done = run("diff", "-r", "--no-dereference", *inner)
            check("restorevol of both, %s at stage %d" % (name, stage), done.returncode == 0, done.stdout.decode()[:300])
            done = cell.restore(name, image)
            check("vos restore of %s at stage %d" % (name, stage), done.returncode == 0, done.stdout.decode())
            back = cell.dump(name, os.path.join(cell.place, "back.dump"))
            same_vnodes("%s in the cell at stage %d" % (name, stage), wanted, back)
            # the id is new, creation is the restore's; the counters of use begin anew, and a dump says that a utility is at work
            same_header("header of %s in the cell at stage %d" % (name, stage), wanted, back, "invuptcCBOADZW")
        cell.start_client()
        for name in names:
            if stage == 2 or name != "home.new":
                same_seen("what a client sees of %s at stage %d" % (name, stage), client[stage][name], seen(cell, name))
                if stage == 2:
                    same_seen("what a client saw of %s before the loss" % name, before_loss[name], seen(cell, name))
        cell.stop_client()

    note("all volumes of the partition, and of the set")
    shutil.rmtree(os.path.join(folder, "cell"))
    wanted = ["restored %s from %d chain %d" % (n, dumps[2], 1 if n == "home.new" else 3) for n in names] + ["ok"]
    status, lines, errors = program.run("diskrestore -server %s -partition %s" % (SERVER, PART))
    check("diskrestore", (status, lines) == (0, wanted), (status, lines, errors))
    for name in names:
        same_vnodes("%s of diskrestore" % name, streams[2][name + ".backup"], read_stream(program.image(name)))
    status, lines, errors = program.run("addvolset -name all", entry, "volsetrestore -name all -extension .s")
    wanted = ["ok", "ok"] + [line.replace(" from", ".s from") for line in wanted]
    check("volsetrestore", (status, lines) == (0, wanted), (status, lines, errors))

    note("the salvager over what was restored")
    quiet = re.compile(r"@\(#\)OpenAFS|STARTING AFS SALVAGER|\d+ nVolumesInInodeFile|SALVAGING VOLUME|.* it would have been updated|totalInodes"
                       r"|It would have Salvaged|SALVAGING OF PARTITION")
    for name in names:
        number = re.search(rb"\s(\d+) RW", run("vos", "examine", name, "-noauth").stdout)
        if not check("vos examine of " + name, number):
            continue
        done = run(BIN + "salvager", "-partition", "/" + PART, "-volumeid", number[1].decode(), "-nowrite")
        with open("/var/log/openafs/SalvageLog", errors="replace") as file:
            more = [line[25:].strip() for line in file if line[25:].strip() and not quiet.match(line[25:])]
        check("the salvager finds nothing to mend in " + name, done.returncode == 0 and not more, more[-3:])


# ---- what doesn't go round


def forms(cell, program):
    note("other forms of streams of one volume")
    folder = os.path.join(cell.place, "forms")
    os.makedirs(folder)
    cell.vos("addsite", ADDRESS, PART, "home.amy")
    cell.vos("release", "home.amy")
    at = os.path.join(folder, "%s.dump")
    since = ["-time", minute()]
    for name, volume, more in [("readonly", "home.amy.readonly", []), ("clone", "home.amy", ["-clone"]), ("since", "home.amy", since),
                               ("omitdirs", "home.amy", since + ["-omitdirs"]), ("empty", "abcdefghijklmnopqrstu1", [])]:
        stream = cell.dump(volume, at % name, *more)
        told = program.examine(at % name)
        check("examine of form " + name, told == (0, stream.told(), ""), told[0::2])
    number = re.search(rb"\s(\d+) RW", run("vos", "examine", "home.amy", "-noauth").stdout)[1].decode()
    must("voldump", "-part", "/" + PART, "-volumeid", number, "-file", at % "voldump")
    told = program.examine(at % "voldump")
    check("examine of form voldump", told == (0, read_stream(at % "voldump").told(), ""), told[0::2])


def limits(cell, program):
    note("what is refused, and what is known not to go round")
    folder = os.path.join(cell.place, "limits")
    other = Program(program.program, folder)
    os.makedirs(os.path.join(folder, "media"))
    os.makedirs(os.path.dirname(other.image("x")))
    put(os.path.join(folder, "media", "slot0"), b"")
    put(os.path.join(folder, "tapeconfig"), b"slots:0-0 0\n")
    cell.start_client()
    cell.new_volume("over.file")
    with open(cell.volume("over.file") + b"/more", "wb") as file:
        file.seek(16777216)
        file.write(b"x")
        settle(file)
    path = cell.path("over.dump")
    stream = cell.dump("over.file", path)
    at = stream.data.index(b"f" + struct.pack(">I", 16777217)) + 4
    told = other.examine(path)
    check("a file of 16 MiB and a byte is refused at its length", told[:2] == (1, ["refused 85 BadImage stream %d" % at]), (told, at))
    cell.new_volume("good")
    put(cell.volume("good") + b"/f", b"f\n")
    good = cell.dump("good", other.image("good"))
    shutil.copy(path, other.image("over.file"))
    entry = "addvolentry -name all -server .* -partition .* -volumes .*"
    status, lines, errors = other.run(HOST, "addvolset -name all", entry, "adddump -dump /full /full/mon", "dump -volumeset all -dump /full")
    bad = "refused 85 BadImage over.file %d" % at
    known("one image over the limits, and no volume of the set is dumped:", lines[-1:] == [bad], lines[-1:])

    # directories without an access list, as a volume server dumps them where the stored list is none
    def without(stream):
        for vnode in stream.vnodes:
            vnode[2].pop("A", None)

    cell.edited("good", without)
    bare = cell.dump("good", cell.path("bare.dump"))
    check("a real stream without access lists", all("A" not in fields for _, _, fields in bare.vnodes))
    os.remove(other.image("over.file"))
    shutil.copy(cell.path("bare.dump"), other.image("good"))
    status, lines, errors = other.run("dump -volumeset all -dump /full", RESTORE + "good -extension .r",
                                      "vos create -server %s -partition %s -name made" % (SERVER, PART))
    check("it is dumped and restored", status == 0, (lines, errors))
    done = cell.restore("good.r", other.image("good.r"))
    known("a volume without access lists comes back with lists of zeros, which vos restore refuses:", done.returncode != 0,
          "status %d" % done.returncode)
    done = cell.restore("made", other.image("made"))
    known("a volume of this program's own `vos create` is refused by vos restore:", done.returncode != 0, "status %d" % done.returncode)

    # a backup volume alone: nothing tells when its read/write volume was created
    for name in ["good", "good.r", "made"]:
        os.remove(other.image(name))
    cell.new_volume("late")
    v = cell.volume("late")
    put(v + b"/f", b"old\n")
    cell.vos("backup", "late")
    cell.dump("late.backup", other.image("late.backup"))
    time.sleep(1)
    status, lines, errors = other.run("labeltape", "dump -volumeset all -dump /full", "dump -volumeset all -dump /full/mon -n")
    known("a backup volume without its read/write volume's image is dumped whole each time:", lines[-2:] == ["volume late.backup from 0", "ok"],
          lines[-2:])

    # a read/write volume is dumped as it was when its image was made, and its clone time is the later moment of the `dump` line
    os.remove(other.image("late.backup"))
    cell.dump("late", other.image("late"))
    time.sleep(1)
    put(v + b"/f", b"new\n")                                           # behind the image, in front of the dump
    time.sleep(2)
    first = other.run("labeltape", "dump -volumeset all -dump /full")
    time.sleep(1)
    put(v + b"/g", b"other\n")
    cell.dump("late", other.image("late"))
    put(os.path.join(folder, "media", "slot1"), b"")
    put(os.path.join(folder, "tapeconfig"), b"slots:0-1 0\n")
    second = other.run("dump -volumeset all -dump /full/mon", RESTORE + "late -extension .r")
    if check("a read/write volume's dumps and restore", first[0] == 0 and second[0] == 0, (first, second)):
        texts = [f["f"] for _, _, f in read_stream(other.image("late.r")).vnodes if f["t"] == FILE]
        known("a change between a read/write volume's image and its dump is in no later increment:", b"old\n" in texts, texts)
    cell.stop_client()


def bridge(cell, program):
    note("nightly.sh and restore.sh")
    folder = os.path.join(cell.place, "bridge")
    other = Program(program.program, folder)
    os.makedirs(os.path.join(folder, "media"))
    for slot in range(4):
        put(os.path.join(folder, "media", "slot%d" % slot), b"")
    put(os.path.join(folder, "tapeconfig"), b"slots:0-3 0\n")
    cell.start_client()
    for name, size in [("user.amy", 4), ("user.bob", 5), ("user.big", 16777217)]:
        cell.new_volume(name)
        put(cell.volume(name) + b"/f", b"x" * size)
    entry = r"addvolentry -name users -server .* -partition .* -volumes user\..*\.backup"
    status, lines, errors = other.run(HOST, "addvolset -name users", entry, "adddump -dump /full /full/mon -expires in 27d")
    check("the script of nightly.sh's set", status == 0, (lines, errors))

    def script(name, *words, **more):
        there = os.path.join(os.path.dirname(os.path.dirname(os.path.dirname(os.path.realpath(__file__)))), "examples", name)
        done = subprocess.run([there, *words], cwd=folder, stdout=subprocess.PIPE, stderr=subprocess.STDOUT, timeout=600,
                              env=dict(os.environ, AFSBACKUP=program.program, **more))
        return done.returncode, done.stdout.decode()

    for level in ["/full", "/full/mon"]:
        status, told = script("nightly.sh", "user.", "users", level)
        check("nightly.sh of " + level, status == 1 and "user.big.backup is left out: refused 85" in told and " volumes 2 tapes 1" in told, told)
        time.sleep(2)
        put(cell.volume("user.amy") + b"/f", b"of the second night\n")
        time.sleep(1)
    cell.stop_client()
    status, told = script("restore.sh", "user.amy", ADDRESS, PART)
    check("restore.sh beside the volume", status == 0 and "restored user.amy.r from" in told and "chain 2" in told, told)
    cell.vos("remove", "-id", "user.amy")
    os.remove(os.path.join(folder, "media", "journal"))
    status, told = script("restore.sh", "user.amy", ADDRESS, PART, EXTENSION="")
    check("restore.sh in the volume's place, with the database lost", status == 0 and told.count("added ") == 2, told)
    cell.start_client()
    for name in ["user.amy", "user.amy.r"]:
        with open(cell.volume(name) + b"/f", "rb") as file:
            check("what the client sees of " + name, file.read() == b"of the second night\n")
    cell.stop_client()


def inside(program, place):
    cell = Cell(place)
    try:
        note("the cell")
        cell.start()
        cell.new_volume("root.cell")
        cell.start_client()
        note("volumes, written by a client")
        fill(cell)
        os.makedirs(cell.path("folder"))
        circle(cell, Program(program, cell.path("folder")))
        forms(cell, Program(program, cell.path("folder")))
        limits(cell, Program(program, cell.path("folder")))
        bridge(cell, Program(program, cell.path("folder")))
    finally:
        cell.stop()
    print("%(same)d the same, %(differ)d differ, %(known)d known not to go round" % counts)
    return 1 if counts["differ"] else 0


def main():
    if len(sys.argv) not in (2, 3) or not os.access(sys.argv[1], os.X_OK):
        give_up("usage: openafs.py PROGRAM [FOLDER]")
    program = os.path.realpath(sys.argv[1])
    if os.environ.get("OPENAFS_PLACE"):
        return inside(program, os.environ["OPENAFS_PLACE"])
    if os.geteuid():
        give_up("must be root, to have a network, mounts and processes of its own")
    missing = [p for p, files in TOOLS.items() if not any(os.path.exists(f) for f in files)]
    if missing:
        give_up("wanted packages of Debian: " + " ".join(missing))
    place = os.path.realpath(sys.argv[2]) if len(sys.argv) > 2 else tempfile.mkdtemp(prefix="openafs-")
    os.makedirs(place, exist_ok=True)
    made = not os.path.exists("/" + PART)
    apart = ["unshare", "-n", "-m", "-u", "-p", "-f", "--kill-child", "--mount-proc"]
    inner = subprocess.Popen(apart + [sys.executable, "-B", os.path.realpath(sys.argv[0]), program],
                             env=dict(os.environ, OPENAFS_PLACE=place, TZ="UTC"))
    signal.signal(signal.SIGTERM, lambda *_: sys.exit(2))
    try:
        status = inner.wait()
    finally:
        inner.kill()                                                   # with it go all processes of its namespace
    if made and os.path.isdir("/" + PART):
        os.rmdir("/" + PART)
    if len(sys.argv) <= 2:
        if status == 0:
            shutil.rmtree(place)
        else:
            print("what was made is in " + place)
    return status


if __name__ == "__main__":
    sys.exit(main())
