"""A changed Corefile under load, files that become bad under it, and ends with `reload`. tests/scenarios/reload.scenario has what each change comes to."""
import os
import re
import subprocess
import sys
import tempfile
import threading
import time

sys.path.insert(0, os.path.join(os.path.dirname(os.path.abspath(__file__)), "lib"))
from message import query_bytes  # noqa: E402
from program import PROGRAM, SECONDS, Client, Rows, Served, needs_program  # noqa: E402

NAME = bytes.fromhex("076578616d706c65036f726700")
QUERY = bytes.fromhex("123401000001000000000000") + NAME + bytes.fromhex("00010001")
REFUSED = bytes.fromhex("123481050001000000000000") + NAME + bytes.fromhex("00010001")

WHOAMI = ".:{port} {\n\treload 2s 1s\n\twhoami\n}\n"
EMPTY = ".:{port} {\n\treload 2s 1s\n}\n"
BROKEN = ".:{port} {\n\treload 2s 1s\n\twhoamy\n}\n"
# What a file may have at most.
FILE_BYTES = 1_048_576


def is_whoami(reply):
    return reply is not None and reply[2:4] == b"\x85\x00" and reply[6:12] == b"\x00\x00\x00\x00\x00\x02"


def is_refused(reply):
    return reply == REFUSED


def put(server, text):
    """Replaces the Corefile in one step, as editors and `mv` do."""
    write(server.path, text.replace("{port}", str(server.port)))


def write(path, text):
    with open(path + ".new", "w") as file:
        file.write(text)
    os.replace(path + ".new", path)


def under_load(rows):
    """Four clients ask four workers all the time while the Corefile changes: every reply is by one of the two, and none is lost."""
    with Served(WHOAMI, "--workers", "4") as server:
        rows.row("it serves under load", server.is_serving(QUERY))
        found = {"whoami": 0, "refused": 0, "other": 0, "none": 0}
        over = threading.Event()
        clients = [threading.Thread(target=asks, args=(server, over, found)) for _ in range(4)]
        for client in clients:
            client.start()
        for text in [EMPTY, BROKEN, WHOAMI, EMPTY, WHOAMI]:
            time.sleep(3.4)
            put(server, text)
        time.sleep(3.4)
        over.set()
        for client in clients:
            client.join()
        rows.row("both Corefiles answered", found["whoami"] > 0 and found["refused"] > 0, found)
        rows.equal("no reply was another", found["other"], 0)
        rows.row("few datagrams were lost", found["none"] * 1000 <= found["whoami"] + found["refused"], found)
        noted = server.noted()
        # Each look that finds the broken Corefile refuses it anew.
        broken = "reload refused: corefile line 3: unknown directive"
        rows.equal("each change was published once, in order", [line for line in noted if line != broken], [
            "reload published 1",
            "reload published 2",
            "reload published 3",
            "reload published 4",
        ])
        rows.row("the broken one was refused between them", set(noted[1:noted.index("reload published 2")]) == {broken}, noted)


def asks(server, over, found):
    with Client(server.port) as client:
        while not over.is_set():
            reply = client.ask(QUERY, 1)
            if reply is None:
                found["none"] += 1
            elif is_whoami(reply):
                found["whoami"] += 1
            elif is_refused(reply):
                found["refused"] += 1
            else:
                found["other"] += 1


def zone(version):
    return f"$TTL 60\n@ SOA ns admin {version} 7200 3600 1209600 60\n@ NS ns.other.\nwww A 192.0.2.{version}\n"


def address_of(server):
    """The last number of the address that the server answers for www.example.org."""
    with Client(server.port) as client:
        reply = client.ask(query_bytes(["www.example.org", "A"]), SECONDS) or b""
    found = re.search(rb"\x00\x04\xc0\x00\x02(.)", reply, re.S)
    return found and found.group(1)[0]


def refused(rows, server, before, title, line):
    """A file became bad: the look tells what a start tells, and what served before serves."""
    rows.equal(f"{title}: a look", server.note(before and f"reload refused: {before}"), f"reload refused: {line}")
    rows.equal(f"{title}: the old answer stays", address_of(server), 1)
    started = subprocess.run([PROGRAM, "serve", "--conf", server.path], capture_output=True, timeout=3 * SECONDS, text=True)
    rows.equal(f"{title}: a start", (started.returncode, started.stdout), (1, line + "\n"))


def faults(rows):
    """A zone file that becomes bad while its server runs, in one way after the other, and is good again."""
    bad = [
        (zone(2) + "www A 192.0.2.256\n", "a fault in a zone", "corefile line 3: zone file line 5: syntax"),
        (zone(2).replace("SOA", "TXT"), "a zone that lost its SOA", "corefile line 3: zone file line 4: nosoa"),
        (None, "a file that vanished", "corefile line 3: directive: nofile"),
        (zone(2).ljust(FILE_BYTES + 1, "\n"), "a file past its limit", f"too many file bytes: {FILE_BYTES + 1}"),
        ("", "an empty file", "corefile line 3: zone file line 1: nosoa"),
    ]
    with tempfile.TemporaryDirectory() as room:
        path = os.path.join(room, "db")
        write(path, zone(1))
        with Served(".:{port} {\n\treload 2s 1s\n\tfile " + path + " example.org\n}\n") as server:
            rows.row("it serves a zone", server.is_serving(QUERY))
            before = None
            for text, title, line in bad:
                os.remove(path) if text is None else write(path, text)
                refused(rows, server, before, title, line)
                before = line
            write(path, zone(3).ljust(FILE_BYTES, "\n"))
            rows.equal("a good one of 1 MiB is taken up", (server.note(f"reload refused: {before}"), address_of(server)), ("reload published 1", 3))


def ends(rows):
    with Served(WHOAMI, "--queries", "2") as server:
        rows.row("--queries 2 with reload serves", server.is_serving(QUERY))
        with Client(server.port) as client:
            client.ask(QUERY, 1)
        rows.equal("the run ends with status 0", server.status(), 0)
        rows.equal("and with no line", (server.process.stdout.read(), server.process.stderr.read()), (b"", b""))
    with Served(WHOAMI, "--queries", "1") as server:
        rows.row("--queries 1 with reload serves", server.is_serving(QUERY))
        rows.equal("it ends too", server.status(), 0)


def main():
    needs_program()
    rows = Rows()
    under_load(rows)
    faults(rows)
    ends(rows)
    rows.end()


if __name__ == "__main__":
    main()
