"""`forward` over loopback: beside NSD or Knot as upstream, while upstreams stop, start, stay silent, and send what they like.

The queries beside the upstream are 4,000, and as many more as a number on the command line says; bench/load.py's client isn't used here,
since each reply is compared.
"""
import os
import random
import socket
import struct
import sys
import tempfile
import threading
import time

sys.path.insert(0, os.path.join(os.path.dirname(os.path.abspath(__file__)), "lib"))
from message import query_bytes, reply_lines  # noqa: E402
from program import Client, Rows, Served, free_port, needs_program  # noqa: E402
from servers import KNOT, NSD, knot, nsd  # noqa: E402
from upstream import Upstream  # noqa: E402

TO = ".:{port} {\n\terrors\n\tforward . 127.0.0.1:%d%s\n}\n"
QUERY = query_bytes(["www.example.org", "A"])
ANSWER = ["* *", "answer www.example.org. 60 IN A 192.0.2.1"]
ADDRESS = "answer www.example.org. 60 IN A 192.0.2.1"
FAILED = "SERVFAIL qr rd"
ZONE = """$TTL 300
@ IN SOA ns admin 1 7200 3600 86400 60
@ IN NS ns
ns IN A 192.0.2.53
@ IN MX 10 mail
mail IN AAAA 2001:db8::25
text IN TXT "one" "two; three"
alias IN CNAME mail
*.wild IN A 192.0.2.9
sub IN NS ns.sub
ns.sub IN A 192.0.2.54
"""
NAMES = ["example.org", "mail.example.org", "text.example.org", "alias.example.org", "a.b.wild.example.org", "x.sub.example.org", "none.example.org"]
TYPES = ["A", "AAAA", "MX", "NS", "SOA", "TXT", "CNAME", "SRV"]
WAIT = 6.0


def head_of(reply):
    return reply_lines(reply)[0] if reply is not None else None


def said(reply):
    """What a reply says, without its OPT record, which is the server's own, and without CD, which the server takes from the query and NSD doesn't."""
    return [line.removesuffix(" cd") for line in reply_lines(reply) if not line.startswith("opt ")] if reply is not None else None


def beside_a_server(rows, asked):
    """Each reply is the upstream's own but for the id and the OPT record."""
    if NSD is None and KNOT is None:
        print("skipped forward beside a server: there is neither NSD nor Knot")
        return
    made = random.Random(1)
    with tempfile.TemporaryDirectory() as room:
        os.chmod(room, 0o755)
        path = os.path.join(room, "db")
        with open(path, "w") as file:
            file.write(ZONE + "".join(f"h{n} IN A 10.0.{n // 256}.{n % 256}\n" for n in range(1000)))
        upstream = (nsd if NSD else knot)(room, [("example.org", path)])
        try:
            rows.row("the upstream serves", upstream.is_serving(query_bytes(["example.org", "SOA"])))
            with Served(TO % (upstream.port, ""), "--workers", "4") as server:
                rows.row("the server asks it", server.is_serving(query_bytes(["example.org", "SOA"])))
                other, lost = [], 0
                with Client(server.port) as client:
                    for number in range(asked):
                        name = made.choice(NAMES) if number % 4 == 0 else f"h{made.randrange(1200)}.example.org"
                        words = [name, made.choice(TYPES), *made.choice([[], ["edns"], ["do"], ["nord"], ["cd"]])]
                        query = query_bytes(words, made.randrange(65536))
                        got, want = client.ask(query, WAIT), upstream.ask(query)
                        lost += got is None
                        if got is not None and (got[:2] != query[:2] or said(got) != said(want)):
                            other.append((words, said(got), said(want)))
                rows.equal(f"of {asked} queries each gets a reply", lost, 0)
                rows.equal("each is the upstream's own", other[:1], [])
                upstream.end()
                with Client(server.port) as client:
                    rows.equal("an upstream that has ended is told", head_of(client.ask(query_bytes(["h7.example.org", "A"]), WAIT)), FAILED)
        finally:
            upstream.end()


def stopped_and_started(rows):
    """An upstream that is silent for a while is asked again, and so is one that ends and comes back at its port."""
    port = free_port()
    with Served(TO % (port, "")) as server:
        rows.row("a server whose upstream isn't there serves", server.is_serving(QUERY))
        with Client(server.port) as client:
            for turn in ("first", "second"):
                rows.equal(f"the {turn} time nobody is there", head_of(client.ask(QUERY, WAIT)), FAILED)
                upstream = At(port, lambda ask, answer, _: [answer])
                rows.row(f"the {turn} time it comes it is asked", ADDRESS in said(client.ask(QUERY, WAIT)))
                upstream.end()


class At:
    """An upstream over UDP at a port, which sends what `replies` makes of an ask, its right answer and the address of the asker."""

    def __init__(self, port, replies):
        self.socket = socket.socket(socket.AF_INET, socket.SOCK_DGRAM)
        self.socket.bind(("127.0.0.1", port))
        self.port, self.replies, self.asked = self.socket.getsockname()[1], replies, []
        self.thread = threading.Thread(target=self.serve, daemon=True)
        self.thread.start()

    def serve(self):
        while True:
            try:
                ask, client = self.socket.recvfrom(65535)
            except OSError:
                return
            if not ask:
                return
            self.asked.append((ask, client))
            for reply in self.replies(ask, answer_to(ask), client):
                try:
                    self.socket.sendto(reply, client)
                except OSError:
                    return

    def end(self):
        # An empty datagram ends its thread.
        with socket.socket(socket.AF_INET, socket.SOCK_DGRAM) as waker:
            waker.sendto(b"", ("127.0.0.1", self.port))
        self.thread.join(WAIT)
        self.socket.close()


def answer_to(ask):
    """The right answer to an ask for www.example.org A, without an OPT record."""
    end = ask.index(b"\0", 12) + 5
    return ask[:2] + b"\x81\x80" + struct.pack(">4H", 1, 1, 0, 0) + ask[12:end] + bytes.fromhex("c00c000100010000003c0004c0000201")


def forged(ask, answer, client):
    """The same answer with another address, from another port and from another address of the host."""
    bad = answer[:-4] + bytes([203, 0, 113, 66])
    for host in ("127.0.0.1", "127.0.0.2"):
        with socket.socket(socket.AF_INET, socket.SOCK_DGRAM) as stranger:
            stranger.bind((host, 0))
            stranger.sendto(bad, client)
    return bad


def spoofed(rows):
    def after_strangers(ask, answer, client):
        forged(ask, answer, client)
        time.sleep(0.05)
        return [answer]

    def strangers_alone(ask, answer, client):
        forged(ask, answer, client)
        return []

    for text, replies, want in [("replies of strangers are none, and the upstream's own is taken", after_strangers, ADDRESS),
                                ("replies of strangers alone are none", strangers_alone, FAILED)]:
        upstream = At(0, replies)
        with Served(TO % (upstream.port, ""), "--workers", "2") as server:
            with Client(server.port) as client:
                server.is_serving(query_bytes(["version.bind", "TXT", "CH"]))
                rows.row(text, want in (said(client.ask(QUERY, WAIT)) or []))
        upstream.end()


def ports_and_ids(rows):
    upstream = At(0, lambda ask, answer, _: [answer])
    with Served(TO % (upstream.port, "")) as server, Client(server.port) as client:
        server.is_serving(QUERY)
        del upstream.asked[:]
        for _ in range(200):
            client.ask(QUERY, WAIT)
        ports, ids = {client[1] for _, client in upstream.asked}, {ask[:2] for ask, _ in upstream.asked}
        rows.row("of 200 asks hardly two come from one port", len(ports) >= 180, len(ports))
        rows.row("hardly two have one id", len(ids) >= 190, len(ids))
    upstream.end()


def hostile(rows):
    """What an upstream sends is passed over, answered or failed, and the server goes on."""
    made = random.Random(2)

    def anything(ask, answer, _):
        kind = made.randrange(6)
        if kind == 0:
            return [made.randbytes(made.randrange(1, 600)) for _ in range(made.choice([1, 4, 20]))]
        if kind == 1:
            cut = bytearray(answer)
            cut[made.randrange(len(cut))] ^= 1 << made.randrange(8)
            return [bytes(cut), answer]
        if kind == 2:
            # Names that point at themselves and at each other, and counts that lie.
            return [ask[:2] + b"\x81\x80" + struct.pack(">4H", 1, 65535, 65535, 65535) + b"\xc0\x0c" * 200, answer]
        if kind == 3:
            return [answer + made.randbytes(60_000), answer]
        if kind == 4:
            return [ask, answer]
        return [answer]

    upstream = At(0, anything)
    with Served(TO % (upstream.port, ""), "--workers", "4") as server, Client(server.port) as client:
        server.is_serving(QUERY)
        heads = [head_of(client.ask(QUERY, WAIT)) for _ in range(300)]
        rows.row("whatever an upstream sends each query has a reply", None not in heads, heads.count(None))
        rows.row("and many have an answer", sum(head == "NOERROR qr rd ra" for head in heads) >= 100, heads.count("NOERROR qr rd ra"))
        rows.row("the server goes on", server.process.poll() is None)
    upstream.end()


def held_up(rows):
    """While three of four workers wait for an upstream that is silent, others are answered."""
    quiet = At(0, lambda *_: [])
    text = f"a.test:{{port}} {{\n\tforward . 127.0.0.1:{quiet.port}\n}}\nb.test:{{port}} {{\n\twhoami\n}}\n"
    with Served(text, "--workers", "4") as server:
        local = query_bytes(["b.test", "A"])
        rows.row("a server with an upstream that is silent serves", server.is_serving(local))
        waiting = [Client(server.port) for _ in range(3)]
        for client in waiting:
            client.send(query_bytes(["x.a.test", "A"]))
        time.sleep(0.2)
        late = 0
        for _ in range(100):
            with Client(server.port) as client:
                late += client.ask(local, 1.0) is None
        rows.equal("three of four workers wait, and of 100 local queries none waits a second", late, 0)
        for client in waiting:
            client.socket.close()
    quiet.end()


def streams(rows):
    """Over TCP a connection is kept, and many queries of one client go over it."""
    upstream = Upstream(ANSWER)
    with Served(TO % (upstream.port, " {\n\t\tforce_tcp\n\t}"), "--workers", "1") as server:
        rows.row("it serves", server.is_serving(QUERY))
        with socket.create_connection(("127.0.0.1", server.port), WAIT) as client:
            client.sendall(b"".join(struct.pack(">H", len(QUERY)) + QUERY for _ in range(50)))
            stream = client.makefile("rb")
            replies = [stream.read(int.from_bytes(stream.read(2), "big")) for _ in range(50)]
        rows.row("50 queries of one connection are passed on", all(ADDRESS in said(reply) for reply in replies))
    upstream.end()


def main():
    needs_program()
    rows = Rows()
    beside_a_server(rows, 4_000 + (int(sys.argv[1]) if len(sys.argv) > 1 else 0))
    stopped_and_started(rows)
    spoofed(rows)
    ports_and_ids(rows)
    hostile(rows)
    held_up(rows)
    streams(rows)
    rows.end()


if __name__ == "__main__":
    main()
