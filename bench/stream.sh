#!/usr/bin/env bash
# Times reading a volume's stream of 256 MiB of data and writing it in pieces beside `cp` of the same bytes in one run, in
# MB/s. The first argument is the program `bench_tools`.
set -eu
program=$(realpath "${1:-crates/bench_tools/out/bench_tools}")
here=$(cd "$(dirname "$0")" && pwd)
folder=$(mktemp -d)
trap 'rm -rf "$folder"' EXIT
python3 "$here/stream.py" 64 > "$folder/short"
python3 - "$program" "$folder" <<'P'
import filecmp, os, subprocess, sys, time

program, folder = sys.argv[1], sys.argv[2]
short, stream, copy = (os.path.join(folder, name) for name in ("short", "stream", "copy"))

def timed(source, target):
    with open(source, "rb") as given, open(target, "wb") as told:
        done = subprocess.run([program, "stream"], stdin=given, stdout=told, stderr=subprocess.PIPE, check=True)
    words = done.stderr.split()
    assert words[0] == b"bytes", done.stderr
    assert int(words[1]) == os.path.getsize(target), done.stderr
    return int(words[3]) / 1e6, int(words[5]) / 1e6

timed(short, stream)
size = os.path.getsize(stream)
copied, reads, writes = [], [], []
for _ in range(3):
    start = time.monotonic()
    subprocess.run(["cp", stream, copy], check=True)
    copied.append(time.monotonic() - start)
    read, written = timed(stream, copy)
    reads.append(read)
    writes.append(written)
    assert filecmp.cmp(stream, copy, shallow=False)
cp = min(copied)
print("cp       %8.0f MB/s" % (size / cp / 1e6))
for name, taken in (("reading", min(reads)), ("writing", min(writes))):
    print("%-8s %8.0f MB/s, a ratio of %.2f" % (name, size / taken / 1e6, cp / taken))
P
