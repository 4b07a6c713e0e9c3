"""The program's own load: its lines beside what the words of its data alone give, ten times alike, and told to what takes nothing; its time, and
that its memory grows as the number of queries does."""
import os
import subprocess
import sys
import tempfile
import threading
import time

sys.path.insert(0, os.path.join(os.path.dirname(os.path.abspath(__file__)), "lib"))
from program import PROGRAM, Rows, needs_program  # noqa: E402

SECONDS = 120
# The least and the most queries, and one more than a name's round.
COUNTS = [1, 2, 3, 1000, 1499, 1500, 1501, 20_000]
MOST = 100_000
# Processor seconds, journals and all: some five times what was measured, so that a busy machine isn't a fault.
PROCESSOR = 5


def wanted(count):
    """The five lines, by the data alone: 1,000 hosts in the zone, 400 names of it that aren't there, 100 names of no block, by turns."""
    names = [617 * index % 1500 for index in range(count)]
    here, absent = sum(name < 1000 for name in names), sum(1000 <= name < 1400 for name in names)
    return f"queries {count}\nnoerror {here}\nnxdomain {absent}\nrefused {count - here - absent}\npublished 2\n".encode()


def load(count, **named):
    named = {"stdout": subprocess.PIPE, "stderr": subprocess.PIPE, **named}
    ran = subprocess.run([PROGRAM, "load", str(count)], timeout=SECONDS, **named)
    return ran.returncode, ran.stdout, ran.stderr


def counts(rows):
    rows.equal("load 1500, as written down", load(1500), (0, b"queries 1500\nnoerror 1000\nnxdomain 400\nrefused 100\npublished 2\n", b""))
    rows.equal("load 3, as written down", load(3), (0, b"queries 3\nnoerror 2\nnxdomain 1\nrefused 0\npublished 2\n", b""))
    for count in COUNTS:
        rows.equal(f"load {count}", load(count), (0, wanted(count), b""))


def measured(count):
    """Status and output of a load, and what it took: processor seconds, seconds, and KiB at the most."""
    with tempfile.TemporaryFile() as out:
        began = time.monotonic()
        process = subprocess.Popen([PROGRAM, "load", str(count)], stdout=out, stderr=out)
        bound = threading.Timer(SECONDS, process.kill)
        bound.start()
        status, used = os.wait4(process.pid, 0)[1:]
        bound.cancel()
        process.returncode = os.waitstatus_to_exitcode(status)
        took = time.monotonic() - began
        out.seek(0)
        return (process.returncode, out.read()), used.ru_utime + used.ru_stime, took, used.ru_maxrss


def most(rows):
    sizes = []
    for count in (MOST // 4, MOST // 2, MOST):
        said, spent, took, size = measured(count)
        rows.equal(f"load {count}", said, (0, wanted(count)))
        print(f"# load {count}: {spent:.2f} processor seconds in {took:.2f} s, at most {size} KiB", flush=True)
        sizes.append(size)
    rows.row(f"load {MOST} takes at most {PROCESSOR} processor seconds", spent <= PROCESSOR, spent)
    few, half, all_of_them = sizes
    rows.row("twice the queries take at most twice the memory, and a quarter more", all_of_them - half <= 2.5 * (half - few), sizes)


def alike(rows):
    ran = {load(5_000) for _ in range(10)}
    rows.equal("ten loads of 5,000 are alike", ran, {(0, wanted(5_000), b"")})


def words(rows):
    for text in ["0", "100001", "-1", "+1", "1 2", "", "x", "00000000001"]:
        ran = subprocess.run([PROGRAM, "load", *text.split(" ")], capture_output=True, timeout=SECONDS)
        rows.equal(f"load {text!r}: usage", (ran.returncode, ran.stdout[:6]), (2, b"usage:"))
    ran = subprocess.run([PROGRAM, "load", "0000000003"], capture_output=True, timeout=SECONDS)
    rows.equal("ten digits with zeros in front are a number", (ran.returncode, ran.stdout), (0, wanted(3)))


def mute(rows):
    """Where standard output takes nothing, the status says so, and nothing else is told."""
    if not os.path.exists("/dev/full"):
        print("skipped: there is no /dev/full")
        return
    with open("/dev/full", "wb") as full:
        rows.equal("a summary that can't be written: status 3", load(3, stdout=full), (3, None, b""))


def main():
    needs_program()
    rows = Rows()
    counts(rows)
    most(rows)
    alike(rows)
    words(rows)
    mute(rows)
    rows.end()


if __name__ == "__main__":
    main()
