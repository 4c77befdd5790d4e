#!/usr/bin/env bash
# Times 2,000 lines `addvolentry` by `afsbackup run` in a new folder beside the writes and syncs that their commits make, in one
# run. The first argument is the program. The folders are made in the one that TMPDIR names. A ratio counts where the load is low:
# else the program waits for a processor.
set -eu
program=$(realpath "${1:-./afsbackup}")
here=$(cd "$(dirname "$0")" && pwd)
folder=$(mktemp -d)
trap 'rm -rf "$folder"' EXIT
python3 - "$program" "$folder" "$here/commits.py" <<'P'
import os, resource, subprocess, sys, time

program, folder, commits = sys.argv[1:]
LINES = 2000
names = ["user\\.%04d" % number for number in range(LINES)]
entry = "addvolentry -name users -server .* -partition .* -volumes "
script = "".join(["addvolset -name users\n"] + [entry + name + "\n" for name in names]).encode()
sizes = [7] + [1 + 6 + 1 + 1 + 2 + len(name) for name in names]

def place(name):
    path = os.path.join(folder, name)
    os.mkdir(path)
    return path

def processor():
    used = resource.getrusage(resource.RUSAGE_CHILDREN)
    return used.ru_utime + used.ru_stime

def by_program(number):
    path = place("run%d" % number)
    start, before = time.monotonic(), processor()
    done = subprocess.run([program, "run"], cwd=path, input=script, stdout=subprocess.PIPE, check=True)
    taken = time.monotonic() - start
    used.append(processor() - before)
    assert done.stdout == b"ok\n" * (LINES + 1), done.stdout[:200]
    assert os.path.getsize(os.path.join(path, "media", "journal")) == 8192 + sum(sizes)
    return taken

def bare(number):
    path = os.path.join(place("bare%d" % number), "journal")
    done = subprocess.run([sys.executable, commits, path, *map(str, sizes)], stdout=subprocess.PIPE, check=True)
    assert os.path.getsize(path) == 8192 + sum(sizes)
    return float(done.stdout)

runs, bares, used = [], [], []
for number in range(3):
    bares.append(bare(number))
    runs.append(by_program(number))
print("writes and syncs  %8.3f s" % min(bares))
print("afsbackup run     %8.3f s, %d lines" % (min(runs), LINES + 1))
print("processor time    %8.3f s of a run; %d processors, load %.1f" % (min(used), os.cpu_count(), os.getloadavg()[0]))
print("ratio             %8.2f" % (min(runs) / min(bares)))
P
