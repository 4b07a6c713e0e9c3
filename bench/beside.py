#!/usr/bin/env python3
"""The built server beside NSD and Knot, over the same zones and the same queries in one run: CPU time and user instructions of a query
over UDP, for hosts that exist, names below a wildcard, names that don't exist and names below a delegation, and CPU time of a start with
72,000 records.

Each server has one worker, or one process that serves. For CPU time a client in C keeps them busy; the order of the servers turns in
each round, and the median of the rounds counts. Instructions are counted by callgrind, in all processes and threads of a server, while it
answers 5,000 queries that wait for their replies, behind 1,000 that aren't counted, and 5,000 of which 32 are under way at a time; the
former also in a zone of 65,000 hosts. A reply that isn't the one that is wanted ends the run.

What is measured is printed as it comes, and kept in bench/beside.csv, a line each; at the end the rows of bench/README.md's table are
printed from there. With --cpu or --instructions one half is measured, and the other's lines are left; with --table nothing is. Wants
valgrind, and NSD and Knot, which are left out where they aren't installed. Nothing here is a test.
"""
import collections
import contextlib
import csv
import hashlib
import itertools
import os
import shutil
import signal
import statistics
import subprocess
import sys
import tempfile
import time

TOP = os.path.dirname(os.path.dirname(os.path.abspath(__file__)))
sys.path.insert(0, os.path.join(TOP, "tests", "lib"))
from callgrind import dumped, under_all  # noqa: E402
from load import ASKS, built, family, queries_file, resident_by_all, spent_by_all  # noqa: E402
from message import query_bytes  # noqa: E402
from program import PROGRAM, Client  # noqa: E402
from servers import KNOT, NSD, dnschain, knot, nsd, write  # noqa: E402

KEPT = os.path.join(TOP, "bench", "beside.csv")
COLUMNS = ["half", "measure", "hosts", "case", "server", "round", "value"]
HOSTS, MANY_HOSTS, MANY = 1_000, 65_000, 36_000
LETTERS = "abcdefghijklmnopqrstuvwxyz0123456789"
ROUNDS, ASKED, SOCKETS, WINDOW = 5, 300_000, 16, 8
NAMES, UNCOUNTED, COUNTED, UNDER_WAY = 1_000, 1_000, 5_000, 32
TOGETHER = f"{UNDER_WAY} under way"
SECONDS, START_SECONDS = 20, 300
ORIGIN = "example.org."
HEAD = """$TTL 300
@ SOA ns admin 1 7200 3600 1209600 60
@ NS ns
ns A 192.0.2.1
*.w A 192.0.2.2
d NS ns.d
ns.d A 192.0.2.3
"""
# Of each case: the name by a number, the RCODE, and how many records answer, authority and additional section have.
Case = collections.namedtuple("Case", "title name rcode records")
CASES = [
    Case("a host", "h{:04x}", 0, [1, 1, 1]),
    Case("a name below a wildcard", "{:03x}.w", 0, [1, 1, 1]),
    Case("a name that doesn't exist", "n{:04x}", 3, [0, 1, 0]),
    Case("a name below a delegation", "{:03x}.d", 0, [0, 1, 1]),
]
START = "a start with 72,000 records"


def zone(room, count):
    """A zone of so many hosts, whose names are as long as those that are asked; of 65,000 it has nearly 1 MiB."""
    return write(room, f"zone-{count}", HEAD + "".join(f"h{number:04x} A 1.1.1.{number % 10}\n" for number in range(count)))


def full_zone(room, count):
    """A zone of so many owners of three letters with two addresses each, short enough for a file of 1 MiB."""
    owners = ("".join(letters) for letters in itertools.islice(itertools.product(LETTERS, repeat=3), count))
    lines = "".join(f"{owner} A 1.{number % 200}.0.1\n A 1.{number % 200}.0.2\n" for number, owner in enumerate(owners))
    return write(room, "zone-full", HEAD + lines)


def queries_of(case, hosts):
    """Queries for names all over a zone of so many hosts; the id of each is its place."""
    step = hosts // NAMES if case.name.startswith("h") else 1
    return [query_bytes([f"{case.name.format(number * step)}.{ORIGIN}", "A", "nord"], number) for number in range(NAMES)]


def wanted(each, case):
    """The RCODE and the records of each section. Knot puts neither the zone's NS nor their addresses behind an answer."""
    return [case.rcode, *([1, 0, 0] if each == "Knot" and case.records[0] else case.records)]


class Values:
    """The measured values, kept in a file as they come. A half that is measured anew takes the place of the one that was kept."""

    def __init__(self, halves):
        kept = [line for line in lines_kept() if line["half"] not in halves]
        self.file = open(KEPT, "w", newline="")
        self.writer = csv.DictWriter(self.file, COLUMNS, lineterminator="\n")
        self.writer.writeheader()
        self.writer.writerows(kept)

    def __enter__(self):
        return self

    def __exit__(self, *_):
        self.file.close()

    def keep(self, half, values, **where):
        """Values by what they measure, of a number of hosts, a case, a server and a round as far as they have one."""
        self.writer.writerows({"half": half, "measure": measure, "value": value, **where} for measure, value in values.items())
        self.file.flush()
        print(", ".join([half, *map(str, where.values()), *(f"{measure} {value}" for measure, value in values.items())]), flush=True)


def lines_kept():
    if not os.path.exists(KEPT):
        return []
    with open(KEPT, newline="") as file:
        return list(csv.DictReader(file))


def keep_machine(values, half):
    """When and where a half is measured, which program, and the versions of the others, as they tell them."""
    values.keep(half, {
        "date": time.strftime("%Y-%m-%d %H:%M UTC", time.gmtime()),
        "processors": len(os.sched_getaffinity(0)),
        "load average": " ".join(f"{load:.2f}" for load in os.getloadavg()),
    })
    with open(PROGRAM, "rb") as program:
        values.keep(half, {"sha256": hashlib.sha256(program.read()).hexdigest()}, server="dnschain")
    commands = {"NSD": [NSD, "-v"], "Knot": [KNOT, "-V"], "valgrind": ["valgrind", "--version"]}
    for each, words in commands.items():
        if words[0] and (each != "valgrind" or half == "instructions"):
            said = subprocess.run(words, stdout=subprocess.PIPE, stderr=subprocess.STDOUT, text=True, timeout=SECONDS).stdout
            values.keep(half, {"version": said.splitlines()[0]}, server=each)


def servers(room, path, front=()):
    """What starts each server, by its name."""
    made = {"dnschain": lambda: dnschain(room, f"{ORIGIN}:{{port}} {{\n\tfile {path}\n}}\n", front)}
    if NSD:
        made["NSD"] = lambda: nsd(room, [(ORIGIN, path)], front)
    if KNOT:
        made["Knot"] = lambda: knot(room, [(ORIGIN, path)], front)
    return made


@contextlib.contextmanager
def started(make):
    """A server that serves, which ends with the `with` block."""
    server = make()
    try:
        if not server.is_serving(query_bytes([ORIGIN, "SOA", "nord"]), START_SECONDS):
            sys.exit(f"{server.name} doesn't serve")
        yield server
    finally:
        server.end()


def turned(made):
    """The rounds, each with the servers in its order."""
    names = list(made)
    for turn in range(ROUNDS):
        first = turn % len(names)
        for each in names[first:] + names[:first]:
            yield turn + 1, each


def asked(asks, server, case, sockets, window, count):
    """How many queries a client sent that keeps so many under way on each of so many sockets, and how many got a reply.

    All that are under way fit into the buffer that the system gives a socket: a server that asks for no larger one would lose some.
    """
    path = queries_file(os.path.dirname(asks), queries_of(case, HOSTS))
    words = [asks, *map(str, (server.port, 1, sockets, window, count)), path, *map(str, wanted(server.name, case))]
    client = subprocess.run(words, capture_output=True, text=True, timeout=START_SECONDS)
    if client.returncode:
        sys.exit(f"{server.name}, {case.title}: the client ended with {client.returncode}, at the reply {client.stderr}")
    sent, got = map(int, client.stdout.split())
    if got < count * 0.99:
        sys.exit(f"{server.name}, {case.title}: of {count} queries {sent} were sent and {got} got replies")
    return sent, got


def measure_queries(values, room, asks):
    made = servers(room, zone(room, HOSTS))
    for case in CASES:
        for turn, each in turned(made):
            with started(made[each]) as server:
                before = sum(spent_by_all(server.process.pid))
                sent, got = asked(asks, server, case, SOCKETS, WINDOW, ASKED)
                found = {"CPU seconds": f"{sum(spent_by_all(server.process.pid)) - before:.2f}", "sent": sent, "got": got}
                values.keep("cpu", found, hosts=HOSTS, case=case.title, server=each, round=turn)


def measure_starts(values, room):
    made = servers(room, full_zone(room, MANY))
    for turn, each in turned(made):
        with started(made[each]) as server:
            found = {"CPU seconds": f"{sum(spent_by_all(server.process.pid)):.2f}", "resident KiB": resident_by_all(server.process.pid)}
            values.keep("cpu", found, case=START, server=each, round=turn)


def ask_all(server, case, queries, times):
    """Asks so many queries, each when the one before has its reply."""
    want = wanted(server.name, case)
    with Client(server.port) as client:
        for number in range(times):
            query = queries[number % len(queries)]
            reply = client.ask(query, SECONDS)
            if reply is None or len(reply) < len(query) or not is_wanted(reply, query, want):
                told = "no reply" if reply is None else f"the reply {reply.hex()}"
                sys.exit(f"{server.name}, {case.title}: {told} to query {number + 1}, {query.hex()}")


def is_wanted(reply, query, want):
    """Whether a reply has the id and the question of its query, this RCODE, and so many records in each section."""
    head = [reply[3] & 15, *(int.from_bytes(reply[at:at + 2], "big") for at in (6, 8, 10))]
    same = reply[:2] + reply[4:6] + reply[12:len(query)] == query[:2] + query[4:6] + query[12:]
    return same and reply[2] & 0x80 and head == want


def counted(server, out, asks, case, hosts):
    """User instructions of the server's processes while it answers so many queries, one at a time, and many under way."""
    queries = queries_of(case, hosts)
    ask_all(server, case, queries, UNCOUNTED)
    pids = family(server.process.pid)
    dumped(out, pids)
    ask_all(server, case, queries, COUNTED)
    found = {"instructions": dumped(out, pids), "queries": COUNTED}
    if hosts == HOSTS:
        found[f"queries {TOGETHER}"] = asked(asks, server, case, 1, UNDER_WAY, COUNTED)[1]
        found[f"instructions {TOGETHER}"] = dumped(out, pids)
    return found


def count_instructions(values, room, asks):
    for hosts in (HOSTS, MANY_HOSTS):
        out = os.path.join(room, f"count-{hosts}")
        for each, make in servers(room, zone(room, hosts), under_all(out)).items():
            with started(make) as server:
                for case in CASES:
                    values.keep("instructions", counted(server, out, asks, case, hosts), hosts=hosts, case=case.title, server=each)


def numbers(lines, measure, **where):
    """The kept values of a measure, in their order."""
    where = {"measure": measure, **where}
    return [float(line["value"]) for line in lines if all(line[key] == str(value) for key, value in where.items())]


def middle(lines, measure, by, scale, **where):
    """The median of a measure divided by another one of the same round, or None."""
    pairs = zip(numbers(lines, measure, **where), numbers(lines, by, **where) if by else itertools.repeat(1))
    found = [value / number * scale for value, number in pairs]
    return statistics.median(found) if found else None


def print_table(lines):
    """The rows of the table in bench/README.md, by the kept values alone."""
    names = [each for each in ("dnschain", "NSD", "Knot") if any(line["server"] == each and line["case"] for line in lines)]
    rows = []
    for case in CASES:
        few, many = ({"hosts": hosts, "case": case.title} for hosts in (HOSTS, MANY_HOSTS))
        rows.append((f"{case.title}: CPU, microseconds", "{:.2f}", ("CPU seconds", "got", 1e6), few))
        rows.append(("the same: user instructions", "{:,.0f}", ("instructions", "queries", 1), few))
        rows.append((f"the same, {TOGETHER}", "{:,.0f}", (f"instructions {TOGETHER}", f"queries {TOGETHER}", 1), few))
        rows.append((f"the same, one of {MANY_HOSTS:,} hosts", "{:,.0f}", ("instructions", "queries", 1), many))
    rows.append((f"{START}: CPU, seconds", "{:.2f}", ("CPU seconds", None, 1), {"case": START}))
    rows.append(("resident behind it, MiB", "{:.0f}", ("resident KiB", None, 1 / 1024), {"case": START}))
    print(f"| A query for | {' | '.join(names)} |\n|---|{'---|' * len(names)}")
    for title, form, what, where in rows:
        found = [middle(lines, *what, server=each, **where) for each in names]
        print(f"| {title} | {' | '.join('' if value is None else form.format(value) for value in found)} |")


def measure(halves):
    if not os.access(PROGRAM, os.X_OK):
        sys.exit("there is no built program (make build)")
    if "instructions" in halves and shutil.which("valgrind") is None:
        sys.exit("there is no valgrind (--cpu does without)")
    with tempfile.TemporaryDirectory() as folder, tempfile.TemporaryDirectory() as room:
        asks = built(folder, "asks", ASKS)
        with Values(halves) as values:
            for half in halves:
                keep_machine(values, half)
                if half == "instructions":
                    count_instructions(values, room, asks)
                else:
                    measure_queries(values, room, asks)
                    measure_starts(values, room)


def main():
    # So that no server is left where a limit of time ends the run.
    signal.signal(signal.SIGTERM, lambda *_: sys.exit("ended before everything is measured"))
    if "--table" not in sys.argv:
        measure([half for half in ("cpu", "instructions") if f"--{half}" in sys.argv] or ["cpu", "instructions"])
    print_table(lines_kept())


if __name__ == "__main__":
    main()
