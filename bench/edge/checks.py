"""What the tests of a real folder share: the program, folders to run it in, and checks that are counted.

The first argument of a test is its program. It works in folders of its own below the second one (else a new one, which goes at the
end where no check failed)."""
import os
import shutil
import subprocess
import sys
import tempfile

PROGRAM = os.path.realpath(sys.argv[1])
ROOT = sys.argv[2] if len(sys.argv) > 2 else tempfile.mkdtemp(prefix="afsbackup-")
failures = []
count = 0


def check(name, holds, more=""):
    global count
    count += 1
    if not holds:
        failures.append(name)
        print("FAILED:", name, more)


def folder():
    return tempfile.mkdtemp(dir=ROOT)


def shell(place, line, given=b""):
    """Runs the program by a line of sh, in which it is $P; the shell's own streams are whole."""
    env = dict(os.environ, P=PROGRAM)
    return subprocess.run(["sh", "-c", line], cwd=place, env=env, input=given, capture_output=True, timeout=120)


def finish():
    if len(sys.argv) <= 2 and not failures:
        shutil.rmtree(ROOT, ignore_errors=True)
    print("%d checks, %d failed" % (count, len(failures)))
    sys.exit(1 if failures else 0)
