#!/usr/bin/env python3
"""Counts the processor minutes of rt ci by crate and kind, and prints them as the table of docs/DESIGN.md.

usage: bench/minutes.py run SAMPLES LOG      runs rt ci here: what it prints goes to LOG, and to SAMPLES a line for each process of the prover
       bench/minutes.py watch SAMPLES PID    does so for an rt ci that runs already, and ends with it
       bench/minutes.py table SAMPLES [LOG [FOLDER..]]   prints the table; with a LOG, of the crates that it names, and `kept` where an
                                             earlier run had proved one; with FOLDERs, of what worked below one of these alone. What
                                             several runs did counts as the last of them did it

rt ci prints no times, so /proc is read twice a second, and what a process used behind its last sample is missing: `run` also says what
all processes used. The checks that a crate's edits begin and end with count as edits. Edits work in folders rt-edit-PID-* of the temporary files.
"""
import json
import os
import re
import resource
import subprocess
import sys
import time

PAUSE = 0.5
TICK = os.sysconf("SC_CLK_TCK")
KINDS = ("proofs", "tests", "edits")


def stat_of(pid):
    """The parent, the start and the seconds of processor time of a process."""
    with open(f"/proc/{pid}/stat") as file:
        fields = file.read().rsplit(")", 1)[1].split()
    return int(fields[1]), fields[19], (int(fields[11]) + int(fields[12])) / TICK


def is_below(pid, top, parents):
    while pid > 1 and pid != top:
        pid = parents.get(pid, 0)
    return pid == top


def sample_of(pid):
    """What a process of the prover works at, where it is one."""
    with open(f"/proc/{pid}/cmdline", errors="replace") as file:
        words = file.read().split("\0")
    if not words[0].endswith("/rattle") or "--crate-name" not in words:
        return None
    name = words[words.index("--crate-name") + 1]
    return {"name": name, "cmd": words[1], "test": "--test" in words, "cwd": os.readlink(f"/proc/{pid}/cwd")}


def look(top, seen):
    """Takes a sample of the processes below one, and gives those that are there."""
    stats, here = {}, set()
    for pid in map(int, filter(str.isdigit, os.listdir("/proc"))):
        try:
            stats[pid] = stat_of(pid)
        except OSError:
            pass
    parents = {pid: stat[0] for pid, stat in stats.items()}
    for pid, (_, start, cpu) in stats.items():
        if not is_below(pid, top, parents):
            continue
        try:
            sample = seen.get((pid, start)) or sample_of(pid)
        except OSError:
            continue
        if sample:
            here.add((pid, start))
            seen[pid, start] = {**sample, "pid": pid, "start": start, "cpu": cpu}
    return here


def follow(top, samples, goes):
    """Takes samples as long as something goes on, and writes each process down once it has ended. Gives their seconds."""
    seen, seconds, here = {}, 0, set()
    with open(samples, "a") as file:
        while seen or goes():
            for key in [key for key in seen if key not in here]:
                sample = seen.pop(key)
                seconds += sample["cpu"]
                print(json.dumps(sample), file=file, flush=True)
            time.sleep(PAUSE)
            here = look(top, seen)
    return seconds


def run(samples, log):
    with open(log, "w") as out:
        gate = subprocess.Popen(["rt", "ci"], stdout=out, stderr=subprocess.STDOUT, stdin=subprocess.DEVNULL)
        seconds = follow(gate.pid, samples, lambda: gate.poll() is None)
    used = resource.getrusage(resource.RUSAGE_CHILDREN)
    whole = used.ru_utime + used.ru_stime
    print(f"rt ci ended with {gate.returncode} after {whole / 60:.1f} processor minutes, {seconds / 60:.1f} of them in the samples")
    return gate.returncode


def watch(samples, pid):
    follow(int(pid), samples, lambda: os.path.exists(f"/proc/{pid}"))
    return 0


def place_of(sample):
    """The kind of work that a process did, and the run of rt ci in which it did it."""
    copied = re.search(r"/rt-(edit|copy)-(\d+)-", sample["cwd"])
    run = copied[2] if copied else sample["cwd"]
    if copied and copied[1] == "edit":
        return "edits", run
    return "tests" if sample["test"] else "proofs", run


def table(samples, log=None, *folders):
    with open("crates.txt") as file:
        crates = re.findall(r"^(\w+)(?: staticlib)?:", file.read(), re.M)
    said = open(log, errors="replace").read() if log else ""
    kept = re.findall(r"^rt: (\w+) is kept: ", said, re.M)
    proved = re.findall(r"^rt: (\w+) (?:NOT PROVED|proved)", said, re.M)
    minutes = {}
    with open(samples) as file:
        for sample in map(json.loads, file):
            if not folders or sample["cwd"].startswith(folders):
                kind, run = place_of(sample)
                runs = minutes.setdefault((sample["name"], kind), {})
                runs[run] = runs.get(run, 0) + sample["cpu"] / 60
    minutes = {key: [*runs.values()][-1] for key, runs in minutes.items()}
    print("| crate | proofs | tests | edits |\n|---|---|---|---|")
    for crate in crates:
        cells = [minutes.get((crate, kind)) for kind in KINDS]
        cells = ["" if cell is None else f"{cell:.1f}" for cell in cells]
        cells[0] = cells[0] or "kept" * (crate in kept)
        if not log or crate in kept or crate in proved:
            print(f"| `{crate}` | {' | '.join(cells)} |")
    sums = [sum(minutes.get((crate, kind), 0) for crate in crates) for kind in KINDS]
    print(f"| all, {sum(sums):.1f} | {' | '.join(f'{it:.1f}' for it in sums)} |")
    return 0


if __name__ == "__main__":
    verbs = {"run": run, "watch": watch, "table": table}
    if len(sys.argv) < 3 or sys.argv[1] not in verbs:
        sys.exit(__doc__)
    sys.exit(verbs[sys.argv[1]](*sys.argv[2:]))
