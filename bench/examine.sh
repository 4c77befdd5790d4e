#!/usr/bin/env bash
# Times `examine` on a stream of 256 MiB of data beside `cat FILE | wc -c` in one run, in MB/s, and tells the peak memory.
# The first argument is the program.
set -eu
program=$(realpath "${1:-./afsbackup}")
here=$(cd "$(dirname "$0")" && pwd)
file=$(mktemp)
trap 'rm -f "$file" "$file".told' EXIT
python3 "$here/stream.py" 64 > "$file"
python3 - "$program" "$file" <<'P'
import os, resource, subprocess, sys, time

program, path = sys.argv[1], sys.argv[2]
size = os.path.getsize(path)

def seconds(run):
    best = None
    for _ in range(3):
        start = time.monotonic()
        run()
        taken = time.monotonic() - start
        best = taken if best is None else min(best, taken)
    return best

cat = seconds(lambda: subprocess.run("cat '%s' | wc -c" % path, shell=True, check=True, stdout=subprocess.DEVNULL))
lines = []

def examine():
    with open(path, "rb") as source:
        done = subprocess.run([program, "examine"], stdin=source, stdout=subprocess.PIPE, check=True)
    lines.append(done.stdout.count(b"\n"))

before = resource.getrusage(resource.RUSAGE_CHILDREN).ru_maxrss
examined = seconds(examine)
peak = resource.getrusage(resource.RUSAGE_CHILDREN).ru_maxrss * 1024
assert set(lines) == {66}, lines
print("cat      %8.0f MB/s" % (size / cat / 1e6))
print("examine  %8.0f MB/s" % (size / examined / 1e6))
print("ratio    %8.2f" % (cat / examined))
print("peak     %8.2f times the input" % (peak / size))
P
