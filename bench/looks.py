#!/usr/bin/env python3
"""What looks for a changed Corefile cost, beside a zone of 72,000 records: user instructions of the built server by callgrind, and its memory.

Instructions of the start; of a look that finds all as it was; and of a look that finds another Corefile and the same zone, which is published.
Looks are counted by how often the Corefile is opened. Then, without callgrind, the resident memory behind the start, the most in a look that
publishes another Corefile and in one that publishes as large another zone, and what is left behind the next look. Exits 1 where a look that
finds nothing costs over 3 instructions for each byte of the files, the one that publishes another Corefile over a quarter of the start, or
takes more memory than its configuration does, or the one that publishes another zone more than twice as much. Wants valgrind.
"""
import ctypes
import os
import select
import shutil
import struct
import sys
import tempfile
import time

TOP = os.path.dirname(os.path.dirname(os.path.abspath(__file__)))
sys.path.insert(0, os.path.join(TOP, "tests", "lib"))
from callgrind import dumped, under_all  # noqa: E402
from load import resident  # noqa: E402
from program import PROGRAM, Served  # noqa: E402

OWNERS, LOOKS, SECONDS, REST = 36_000, 4, 120, 1.0
A_BYTE, A_START = 3, 1 / 4
TEXT = ".:{port} {\n\treload 2s 1s\n\tfile %s example.org\n}\n"
QUERY = bytes.fromhex("123400000001000000000000076578616d706c65036f72670000060001")
OPENED, EVENT = 0x20, struct.Struct("iIII")


def zone(owners=OWNERS, version=1):
    hosts = "".join(f"h{host:x} A 10.0.0.{version}\n A 10.0.1.{version}\n" for host in range(owners))
    return f"$TTL 60\n@ SOA ns admin {version} 7200 3600 1209600 60\n@ NS ns.other.\n{hosts}"


def put(path, text):
    """Replaces a file in one step."""
    with open(path + ".new", "w") as file:
        file.write(text)
    os.replace(path + ".new", path)


class Opens:
    """How often a file is opened."""

    def __init__(self, path):
        self.libc = ctypes.CDLL(None, use_errno=True)
        self.number = self.libc.inotify_init1(os.O_NONBLOCK)
        if self.number < 0 or self.libc.inotify_add_watch(self.number, path.encode(), OPENED) < 0:
            sys.exit("the system doesn't tell which files are opened")

    def wait(self, times):
        """Waits until the file was opened so many times more."""
        end = time.monotonic() + SECONDS
        while times > 0:
            if not select.select([self.number], [], [], max(0, end - time.monotonic()))[0]:
                sys.exit("there is no look")
            times -= len(os.read(self.number, EVENT.size * times)) // EVENT.size


def published(server, number=1):
    """Waits for the line of a publication. Those of callgrind begin with `==`."""
    while (line := server.note(seconds=SECONDS)) != f"reload published {number}":
        if line is None or not line.startswith("=="):
            sys.exit(f"nothing is published: {line}")


def measured(room):
    """Instructions of the start, of a look, and of one that publishes; and the bytes that a look reads."""
    db, out = os.path.join(room, "db"), os.path.join(room, "callgrind.out")
    put(db, zone())
    text = TEXT % db
    with Served(text, "--workers", "1", under=under_all(out)) as server:
        if not server.is_serving(QUERY, SECONDS):
            sys.exit("it doesn't serve")
        pids = [server.process.pid]
        start = dumped(out, pids)
        opens = Opens(server.path)
        opens.wait(1)
        time.sleep(REST)
        dumped(out, pids)
        opens.wait(LOOKS)
        time.sleep(REST)
        look = dumped(out, pids) / LOOKS
        size = os.path.getsize(db) + os.path.getsize(server.path)
        put(server.path, text.replace("{port}", str(server.port)) + "# another\n")
        published(server)
        time.sleep(REST / 2)
        return start, look, dumped(out, pids), size


def most(pid):
    """The most resident memory since it was forgotten, in KiB."""
    with open(f"/proc/{pid}/status") as file:
        return next(int(line.split()[1]) for line in file if line.startswith("VmHWM"))


def forget(pid):
    with open(f"/proc/{pid}/clear_refs", "w") as file:
        file.write("5")


def sizes(room):
    """Resident memory in KiB: of a configuration, behind the start, the most in a look that finds another Corefile, behind the next look, the most
    in one that finds another zone, and behind the next."""
    db = os.path.join(room, "db")
    put(db, zone(1))
    with Served(TEXT % db, "--workers", "1") as server:
        if not server.is_serving(QUERY, SECONDS):
            sys.exit("it doesn't serve")
        least = resident(server.process.pid)
    put(db, zone())
    with Served(TEXT % db, "--workers", "1") as server:
        if not server.is_serving(QUERY, SECONDS):
            sys.exit("it doesn't serve")
        pid = server.process.pid
        found = [resident(pid) - least, resident(pid)]
        for number, path, text in [(1, server.path, (TEXT % db).replace("{port}", str(server.port)) + "# another\n"), (2, db, zone(version=2))]:
            forget(pid)
            put(path, text)
            published(server, number)
            found.append(most(pid))
            opens = Opens(server.path)
            opens.wait(1)
            time.sleep(REST)
            found.append(resident(pid))
        return found


def main():
    if shutil.which("valgrind") is None or not os.access(PROGRAM, os.X_OK):
        print("skipped: there is no valgrind, or the program isn't built")
        return 0
    with tempfile.TemporaryDirectory() as room:
        start, look, reload, size = measured(room)
        whole, first, with_conf, behind, with_zone, last = sizes(room)
    print(f"{start:14,.0f}  the start")
    print(f"{look:14,.0f}  a look that finds all as it was: {look / size:.2f} a byte, of {A_BYTE} at most")
    print(f"{reload:14,.0f}  a look that finds another Corefile: {reload / start:.3f} of the start, of {A_START} at most")
    print(f"{first:14,}  KiB behind the start, of which its configuration is {whole:,}")
    print(f"{with_conf:14,}  KiB at the most in a look that finds another Corefile, {behind:,} behind the next look")
    print(f"{with_zone:14,}  KiB at the most in a look that finds another zone, {last:,} behind the next look")
    return int(look > A_BYTE * size or reload > A_START * start or with_conf > first + whole or with_zone > behind + 2 * whole)


if __name__ == "__main__":
    sys.exit(main())
