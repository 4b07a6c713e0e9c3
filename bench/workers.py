#!/usr/bin/env python3
"""CPU time a query of the built server with 1, 2 and 4 workers on one port, in one run over loopback, and its system calls.

A client in C, with threads, keeps so many queries under way over so many sockets, and sends and receives them by bursts: a worker
that has answered one finds the next, and doesn't sleep, since a client that waits measures the waiting. The same number of
queries is asked of each; the ratio to one worker of the same round is what counts, since the time itself is the machine's. Wants a
C compiler, and strace for the system calls. Nothing here is a test.
"""
import os
import re
import shutil
import statistics
import subprocess
import sys
import tempfile
import time

TOP = os.path.dirname(os.path.dirname(os.path.abspath(__file__)))
sys.path.insert(0, os.path.join(TOP, "tests", "lib"))
from load import ASKS, built, queries_file, spent  # noqa: E402
from program import PROGRAM, Served  # noqa: E402

ASKED = 2_000_000
ROUNDS = 5
THREADS = 2
# Of each thread, and the queries under way on each socket.
SOCKETS = 8
WINDOW = 64
QUERY = bytes.fromhex("123400000001000000000000076578616d706c65036f72670000010001")


def measured(asks, queries, workers):
    with Served(".:{port} {\n\twhoami\n}\n", "--workers", str(workers)) as server:
        if not server.is_serving(QUERY):
            sys.exit("it doesn't serve")
        before = spent(server.process.pid)
        start = time.monotonic()
        said = subprocess.run([asks, *map(str, (server.port, THREADS, SOCKETS, WINDOW, ASKED)), queries], capture_output=True, check=True)
        took = time.monotonic() - start
        user, system = (now - then for now, then in zip(spent(server.process.pid), before))
        sent, got = map(int, said.stdout.split())
        return user, system, got, sent - got, took


def calls(asks, queries, asked):
    """System calls of the workers for so many queries, beside those of as many fewer."""
    with Served(".:{port} {\n\twhoami\n}\n") as server:
        server.is_serving(QUERY)
        log = os.path.join(os.path.dirname(asks), "calls")
        trace = subprocess.Popen(["strace", "-f", "-c", "-o", log, "-p", str(server.process.pid)], stderr=subprocess.DEVNULL)
        time.sleep(1)
        subprocess.run([asks, str(server.port), "1", "1", "1", str(asked), queries], capture_output=True, check=True)
        trace.send_signal(2)
        trace.wait(10)
        counts = {}
        for line in open(log):
            found = re.match(r"\s*[\d.]+\s+[\d.]+\s+\d+\s+(\d+)\s+(?:\d+\s+)?(\w+)$", line)
            if found and found[2] != "total":
                counts[found[2]] = int(found[1])
        return counts


def main():
    if not os.access(PROGRAM, os.X_OK):
        sys.exit("there is no built program (make build)")
    with tempfile.TemporaryDirectory() as folder:
        asks, queries = built(folder, "asks", ASKS), queries_file(folder, [QUERY])
        ratios = {2: [], 4: []}
        for _ in range(ROUNDS):
            for workers in (1, 2, 4):
                user, system, got, lost, took = measured(asks, queries, workers)
                each = (user + system) / got * 1e6
                if workers == 1:
                    one = each
                else:
                    ratios[workers].append(each / one)
                print(f"{workers} workers: {each:.2f} us of CPU a query ({user / got * 1e6:.2f} user), {each / one:.2f} of one worker's; {got / took:.0f} a second, {lost} lost")
        for workers, found in ratios.items():
            print(f"{workers} workers: {statistics.median(found):.2f} of one worker's, the median of {ROUNDS} rounds")
        if shutil.which("strace"):
            few, many = (calls(asks, queries, asked) for asked in (1_000, 11_000))
            for name in sorted(set(few) | set(many)):
                extra = (many.get(name, 0) - few.get(name, 0)) / 10_000
                if extra > 0.001:
                    print(f"{extra:6.3f} {name} a query")


if __name__ == "__main__":
    main()
