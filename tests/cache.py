"""A cache under load, with upstreams whose answers change all the time, and names that come once.

Each answer of an upstream has the moment of its making and the upstream's number in its address. A reply that is given when its entry has
lived too long, that has more or less than its TTL, or that is of another block's upstream is told; and so is one of an upstream that the
block no longer names. Then names that come once fill a cache beyond its room, and memory stays. `cache.py 1000000` is a soak of as many
queries, and of as many names.
"""
import os
import socket
import struct
import sys
import threading
import time

sys.path.insert(0, os.path.join(os.path.dirname(os.path.abspath(__file__)), "lib"))
from message import name_at, query_bytes  # noqa: E402
from program import Rows, Served, corefile, free_port, needs_program  # noqa: E402

QUERIES = 30_000
NAMES = 60_000
CLIENTS = 4
# The TTL of an upstream's records, and so of an entry, in seconds.
LIFE = 2
# A moment is a count of so many seconds, of which an address has 16 bits.
TICK = 0.02
STARTED = time.monotonic()
LABELS = 40
# A look comes within three seconds of the one before.
LOOK = 3.0


def ticks():
    return int((time.monotonic() - STARTED) / TICK)


class Upstream(threading.Thread):
    """Answers each question for A with its number and the moment."""

    def __init__(self, number):
        super().__init__(daemon=True)
        self.number, self.asked = number, 0
        self.socket = socket.socket(socket.AF_INET, socket.SOCK_DGRAM)
        self.socket.setsockopt(socket.SOL_SOCKET, socket.SO_RCVBUF, 1 << 20)
        self.port = free_port()
        self.socket.bind(("127.0.0.1", self.port))
        self.start()

    def run(self):
        while True:
            message, client = self.socket.recvfrom(4096)
            _, at = name_at(message, 12)
            head = message[:2] + b"\x81\x80\x00\x01\x00\x01\x00\x00\x00\x00"
            address = bytes([10, self.number]) + struct.pack(">H", ticks() & 0xFFFF)
            record = b"\xc0\x0c" + struct.pack(">HHIH", 1, 1, LIFE, 4) + address
            self.asked += 1
            self.socket.sendto(head + message[12:at + 4] + record, client)


class Asker(threading.Thread):
    """Asks a port for names again and again, so many at once, and looks at each reply."""

    def __init__(self, port, upstream, queries, seed):
        super().__init__()
        self.port, self.upstream, self.queries, self.seed = port, upstream, queries, seed
        self.old, self.other, self.odd, self.lost = [], [], [], 0

    def run(self):
        with socket.socket(socket.AF_INET, socket.SOCK_DGRAM) as client:
            client.connect(("127.0.0.1", self.port))
            client.settimeout(1)
            for number in range(self.queries):
                label = f"n{(number * 7 + self.seed) % LABELS}"
                name = f"{label}.example.org" if number % 3 else f"{label.upper()}.Example.ORG"
                sent = ticks()
                try:
                    client.send(query_bytes([name, "A"], number & 0xFFFF))
                    while (reply := client.recv(4096))[:2] != struct.pack(">H", number & 0xFFFF):
                        pass
                except (TimeoutError, ConnectionRefusedError):
                    self.lost += 1
                    continue
                self.look(reply, sent)

    def look(self, reply, sent):
        """A reply to a query that was sent at a moment. Its entry lived then, and was made no later than its address says."""
        if reply[2:4] != b"\x81\x80" or reply[6:8] != b"\x00\x01":
            self.odd.append(reply)
            return
        ttl, address = struct.unpack(">I", reply[-10:-6])[0], reply[-4:]
        made = struct.unpack(">H", address[2:])[0]
        # How long ago that was when the query went out; below 0 where its answer was made behind that.
        age = ((sent - made + 0x8000) & 0xFFFF) - 0x8000
        if address[0] != 10 or address[1] != self.upstream.number:
            self.other.append(address)
        if age * TICK >= LIFE + TICK or not 1 <= ttl <= LIFE:
            self.old.append((age * TICK, ttl))


def memory(server):
    with open(f"/proc/{server.process.pid}/statm") as file:
        return int(file.read().split()[1]) * os.sysconf("SC_PAGE_SIZE") >> 10


def block(port, upstream):
    return f".:{port} {{\n    reload 2s 1s\n    cache {{\n        success 64 {LIFE} 1\n    }}\n    forward . 127.0.0.1:{upstream.port}\n}}\n"


def changing(rows, queries):
    """Two blocks of the same names with upstreams of their own, of which one is given another upstream under load."""
    one, two, three = (Upstream(number) for number in (1, 2, 3))
    other = free_port()
    with Served(block("{port}", one) + block(other, two), "--workers", "2") as server:
        rows.row("it serves", server.is_serving(query_bytes(["start.example.org", "A"])))
        askers = [Asker(server.port if n % 2 == 0 else other, one if n % 2 == 0 else two, queries // CLIENTS, n) for n in range(CLIENTS)]
        for asker in askers:
            asker.start()
        for asker in askers:
            asker.join()
        told(rows, askers, "under load")
        asked = one.asked + two.asked
        rows.row("upstreams were asked, and most replies came of the caches", LABELS <= asked and asked * 10 < queries, asked)
        corefile(server.room.name, block(server.port, three) + block(other, two))
        line = server.process.stderr.readline().decode()
        rows.equal("the block with another upstream is published", line, "reload published 1\n")
        # The line comes in front of the publication.
        time.sleep(1)
        again = [Asker(server.port, three, queries // 8, 1), Asker(other, two, queries // 8, 2)]
        for asker in again:
            asker.start()
        for asker in again:
            asker.join()
        told(rows, again, "behind the change")
        rows.row("the server goes on", server.process.poll() is None)
        print(f"# {queries} queries, {asked} asked of upstreams; {sum(asker.lost for asker in askers + again)} lost", flush=True)


def told(rows, askers, when):
    rows.equal(f"no reply was of an entry past its life {when}", [old for asker in askers for old in asker.old], [])
    rows.equal(f"none was of another upstream {when}", [other for asker in askers for other in asker.other], [])
    rows.equal(f"each was an answer {when}", [odd for asker in askers for odd in asker.odd], [])
    lost, asked = sum(asker.lost for asker in askers), sum(asker.queries for asker in askers)
    rows.row(f"few datagrams were lost {when}", lost * 1000 <= asked, (lost, asked))


def filling(rows, names):
    """Names that come once: the cache keeps what it has room for."""
    text = '.:{port} {\n    cache {\n        success 2000\n    }\n    template IN A {\n        answer "{{ .Name }} 3600 IN A 192.0.2.1"\n    }\n}\n'
    with Served(text) as server:
        rows.row("it serves a cache of 2,000", server.is_serving(query_bytes(["start.example.org", "A"])))
        with socket.socket(socket.AF_INET, socket.SOCK_DGRAM) as client:
            client.connect(("127.0.0.1", server.port))
            client.settimeout(1)
            ask(client, range(10_000))
            first = memory(server)
            lost = ask(client, range(10_000, names))
        last = memory(server)
        rows.row(f"{names} names take no more memory than 10,000, but for a twentieth", last * 20 <= first * 21, (first, last))
        rows.row("few datagrams were lost", lost * 1000 <= names, lost)
        print(f"# {first} KiB behind 10,000 names, {last} KiB behind {names}", flush=True)


def ask(client, numbers):
    """Asks for a name of each number, fifty at once, and gives how many had no reply."""
    lost = 0
    for start in range(numbers.start, numbers.stop, 50):
        some = range(start, min(start + 50, numbers.stop))
        for number in some:
            client.send(query_bytes([f"x{number}.example.org", "A"], number & 0xFFFF))
        try:
            for _ in some:
                client.recv(4096)
        except TimeoutError:
            lost += 1
    return lost


def main():
    needs_program()
    rows = Rows()
    count = int(sys.argv[1]) if len(sys.argv) > 1 else None
    changing(rows, count or QUERIES)
    filling(rows, count or NAMES)
    rows.end()


if __name__ == "__main__":
    main()
