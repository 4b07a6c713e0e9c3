"""The program over TCP: messages in any pieces, many of them at once, clients that are slow, silent or gone, and a bound on connections."""
import os
import re
import resource
import shutil
import socket
import statistics
import struct
import subprocess
import sys
import tempfile
import time

sys.path.insert(0, os.path.join(os.path.dirname(os.path.abspath(__file__)), "lib"))
from message import query_bytes, reply_lines  # noqa: E402
from program import Client, Rows, Served, needs_program  # noqa: E402

NAME = bytes.fromhex("076578616d706c65036f726700")
QUERY = bytes.fromhex("123401000001000000000000") + NAME + bytes.fromhex("00010001")
FRAME = struct.pack(">H", len(QUERY)) + QUERY
WHOAMI = ".:{port} {\n\twhoami\n}\n"
BOUND = 1024
# So many connections from one address at most, a quarter of all.
OF_ONE = BOUND // 4


class Stream:
    """A connection of a client on loopback, from one of its addresses."""

    def __init__(self, port, seconds=5.0, address="127.0.0.1"):
        self.socket = socket.create_connection(("127.0.0.1", port), timeout=seconds, source_address=(address, 0))
        self.socket.setsockopt(socket.IPPROTO_TCP, socket.TCP_NODELAY, 1)
        self.port = self.socket.getsockname()[1]

    def __enter__(self):
        return self

    def __exit__(self, *_):
        self.socket.close()

    def exactly(self, count):
        got = b""
        while len(got) < count:
            piece = self.socket.recv(count - len(got))
            if not piece:
                return got
            got += piece
        return got

    def reply(self):
        """The next message, or None where the connection ends first."""
        try:
            size = self.exactly(2)
            if len(size) < 2:
                return None
            message = self.exactly(struct.unpack(">H", size)[0])
            return message if len(message) == struct.unpack(">H", size)[0] else None
        except OSError:
            return None

    def ask(self, frame=FRAME):
        self.socket.sendall(frame)
        return self.reply()

    def is_closed(self, seconds):
        self.socket.settimeout(seconds)
        try:
            return self.socket.recv(1) == b""
        except ConnectionError:
            return True
        except TimeoutError:
            return False

    def reset(self):
        self.socket.setsockopt(socket.SOL_SOCKET, socket.SO_LINGER, struct.pack("ii", 1, 0))
        self.socket.close()


def whoami(port):
    """The reply to QUERY for a client at 127.0.0.1 and this port, by hand (RFC 1035, section 4.1)."""
    return (
        bytes.fromhex("123485000001000000000002") + NAME + bytes.fromhex("00010001")
        + bytes.fromhex("c00c00010001000000000004") + bytes([127, 0, 0, 1])
        + bytes.fromhex("045f746370c00c00210001000000000007") + bytes(4) + struct.pack(">H", port) + b"\x00"
    )


def pieces(rows, port):
    with Stream(port) as client:
        rows.equal("a query in one piece gets its reply", client.ask(), whoami(client.port))
        for byte in FRAME:
            client.socket.sendall(bytes([byte]))
        rows.equal("so does one byte by byte, on the same connection", client.reply(), whoami(client.port))
        client.socket.sendall(FRAME[:1])
        time.sleep(0.05)
        client.socket.sendall(FRAME[1:])
        rows.equal("and one whose length is cut in two", client.reply(), whoami(client.port))


def pipelined(rows, port):
    with Stream(port) as client:
        client.socket.sendall(FRAME * 200)
        replies = [client.reply() for _ in range(200)]
        rows.row("200 queries in one write get 200 replies", replies == [whoami(client.port)] * 200, len(set(replies)))
    with Stream(port) as client:
        client.socket.sendall(FRAME + struct.pack(">H", 0) + FRAME)
        rows.row("an empty message gets silence, and the next one its reply", [client.reply(), client.reply()] == [whoami(client.port)] * 2)
    with Stream(port) as client:
        client.socket.sendall(FRAME)
        client.socket.shutdown(socket.SHUT_WR)
        rows.equal("a client that sends no more still gets its reply", client.reply(), whoami(client.port))
        rows.row("and is closed then", client.is_closed(5))


def torn(rows, port):
    for title, bytes_sent in [("half a length", FRAME[:1]), ("half a message", FRAME[:15]), ("a length alone", FRAME[:2])]:
        with Stream(port) as client:
            client.socket.sendall(bytes_sent)
            client.socket.shutdown(socket.SHUT_WR)
            rows.row(f"{title} and the end: closed without a reply", client.reply() is None)
    for cut in range(1, len(FRAME)):
        Stream(port).socket.close()
        client = Stream(port)
        client.socket.sendall(FRAME[:cut])
        client.reset()
    client = Stream(port)
    client.socket.sendall(FRAME)
    client.reset()
    with Stream(port) as client:
        rows.equal("resets at every step end nothing", client.ask(), whoami(client.port))


def never_reads(rows, port):
    silent = Stream(port)
    silent.socket.setsockopt(socket.SOL_SOCKET, socket.SO_RCVBUF, 4096)
    silent.socket.settimeout(0.2)
    sent = 0
    try:
        while sent < 200_000_000:
            sent += silent.socket.send(FRAME * 500)
    except (TimeoutError, OSError):
        pass
    with Stream(port) as client:
        rows.equal("a client that never reads holds up no other", client.ask(), whoami(client.port))
    silent.socket.close()


def median(port, rounds):
    """The median of a query's time over a connection, in seconds."""
    times = []
    with Stream(port) as client:
        for _ in range(rounds):
            began = time.monotonic()
            if client.ask() is None:
                return None
            times.append(time.monotonic() - began)
    return statistics.median(times)


def stalled(rows, port):
    """Rounds of a median alone and one beside the crowd, until in one of them the crowd cost at most 20 %. What else the
    machine does makes one round or another longer; a server that looks at each connection for each message is slower in
    all of them."""
    if resource.getrlimit(resource.RLIMIT_NOFILE)[0] < 1500:
        print("skipped: stalled clients, since this process may not open so many sockets")
        return
    grown = []
    while len(grown) < 15 and min(grown, default=9) > 1.2:
        alone = median(port, 400)
        crowd = [Stream(port, address=address_of(number)) for number in range(1000)]
        for at, client in enumerate(crowd):
            client.socket.sendall(FRAME[:at % len(FRAME)])
        time.sleep(0.1)
        beside = median(port, 400)
        for client in crowd:
            client.socket.close()
        time.sleep(0.2)
        grown.append(beside / alone if alone and beside else 9)
    told = ", ".join(f"{times:.2f}" for times in grown)
    rows.row("beside 1,000 stalled clients another's median grows by at most 20 %", min(grown) <= 1.2, f"{told} times")


def address_of(number):
    """An address of loopback, of which each is one of 200 numbers in a row."""
    return f"127.0.0.{2 + number // 200}"


def served_of(crowd):
    """How many of the connections get a reply."""
    alive = 0
    for client in crowd:
        try:
            client.socket.sendall(FRAME)
            alive += client.reply() is not None
        except OSError:
            pass
    return alive


def many(port, addresses):
    """A connection from each of the addresses, as far as they can be made."""
    crowd = []
    for address in addresses:
        try:
            crowd.append(Stream(port, address=address))
        except OSError:
            break
    time.sleep(0.5)
    return crowd


def close(crowd):
    for client in crowd:
        client.socket.close()
    time.sleep(0.3)


def of_one_address(rows, port):
    crowd = many(port, ["127.0.0.1"] * (OF_ONE + 100))
    rows.equal(f"of {OF_ONE + 100} connections from one address {OF_ONE} are served", served_of(crowd), OF_ONE)
    with Stream(port, address="127.0.0.2") as client:
        rows.row("and one from another beside them", client.ask() is not None)
    close(crowd)


def few_descriptors(rows):
    """A server that may open 64 descriptors keeps 32 of them from its connections, so a look reads its files all the time."""
    limit = ["prlimit", "--nofile=64:64", "--"]
    if shutil.which("prlimit") is None:
        print("skipped: there is no prlimit")
        return
    text = ".:{port} {\n\treload 2s 1s\n\twhoami\n}\n"
    with Served(text, under=limit) as server:
        rows.row("with 64 descriptors it serves", server.is_serving(QUERY))
        crowd = many(server.port, [address_of(number * 20) for number in range(60)])
        alive = served_of(crowd)
        rows.row("of 60 connections some are served, and 32 descriptors stay", 10 <= alive <= 32, alive)
        with open(server.path + ".new", "w") as file:
            file.write(text.replace("{port}", str(server.port)).replace("2s 1s", "2s 0s"))
        os.replace(server.path + ".new", server.path)
        time.sleep(3.4)
        with Client(server.port) as client:
            rows.row("UDP is served beside them", client.ask(QUERY) is not None)
        close(crowd)
        noted = server.noted()
    rows.equal("the looks meanwhile read their files", noted, ["reload published 1"])


def bound(rows, port):
    if resource.getrlimit(resource.RLIMIT_NOFILE)[0] < 2200:
        print("skipped: the bound on connections, since this process may not open so many sockets")
        return
    crowd = many(port, [address_of(number) for number in range(2000)])
    alive = served_of(crowd)
    rows.row(f"of 2,000 connections at most {BOUND} are served, and most of these", BOUND // 2 < alive <= BOUND, alive)
    for client in crowd:
        client.socket.close()
    with Client(port) as client:
        rows.row("UDP is served meanwhile", client.ask(QUERY) is not None)
    end = time.monotonic() + 10
    served = False
    while time.monotonic() < end and not served:
        try:
            with Stream(port) as client:
                served = client.ask() is not None
        except OSError:
            time.sleep(0.1)
    rows.row("and once they are gone a new one is", served)


def with_dig(rows, port):
    if shutil.which("dig") is None:
        print("skipped: there is no dig")
        return
    asked = ["dig", "+tcp", "+time=2", "+tries=2", "@127.0.0.1", "-p", str(port), "example.org"]
    said = subprocess.run(asked, capture_output=True, text=True, timeout=10).stdout
    rows.row("dig +tcp", "status: NOERROR" in said and "_tcp.example.org." in said, said)
    asked = ["dig", "+time=2", "+tries=2", "@127.0.0.1", "-p", str(port), "example.org", "ANY"]
    said = subprocess.run(asked, capture_output=True, text=True, timeout=10).stdout
    rows.row("dig ANY, which takes TCP by itself", "status: NOERROR" in said, said)
    if shutil.which("kdig") is None:
        print("skipped: there is no kdig")
        return
    asked = ["kdig", "+tcp", "+keepopen", "+timeout=2", "@127.0.0.1", "-p", str(port), "example.org", "example.net"]
    said = subprocess.run(asked, capture_output=True, text=True, timeout=10).stdout
    rows.row("kdig +tcp +keepopen, two names", said.count("status: NOERROR") == 2, said)


def with_dnsperf(rows, port):
    if not shutil.which("dnsperf"):
        print("skipped: dnsperf isn't installed")
        return
    with tempfile.NamedTemporaryFile("w") as names:
        names.write("example.org A\nexample.net AAAA\n")
        names.flush()
        asked = ["dnsperf", "-m", "tcp", "-s", "127.0.0.1", "-p", str(port), "-d", names.name, "-c", "20", "-n", "5000", "-t", "10"]
        said = subprocess.run(asked, capture_output=True, text=True, timeout=120).stdout
    counts = re.findall(r"Queries (?:completed|lost): +(\d+)", said)
    rows.equal("dnsperf -m tcp: 10,000 queries over 20 connections, none lost", counts[:2], ["10000", "0"])
    rows.row("each is answered by NOERROR", "NOERROR 10000 (100.00%)" in said, said[-600:])


def truncated(rows):
    """An answer of 100 addresses: over UDP the longest prefix of its records with TC (RFC 2181, section 9), over TCP all of them."""
    hosts = "".join(f"many A 192.0.2.{number}\n" for number in range(100))
    with tempfile.TemporaryDirectory() as folder:
        path = os.path.join(folder, "db")
        with open(path, "w") as file:
            file.write(f"$TTL 60\n@ SOA ns admin 1 7200 3600 1209600 60\n@ NS ns\nns A 192.0.2.200\n{hosts}")
        with Served(f"example.org:{{port}} {{\n\tfile {path}\n}}\n") as server:
            rows.row("a zone with an answer of 100 addresses is served", server.is_serving(QUERY))
            asked = query_bytes(["many.example.org", "A"])
            want = [f"answer many.example.org. 60 IN A 192.0.2.{number}" for number in range(100)]
            with Client(server.port) as client:
                short = reply_lines(client.ask(asked))
            # The header and the question take 34 bytes and each address 16, so 29 stand within 512.
            rows.equal("over UDP it is cut at 512 bytes", short, ["NOERROR qr aa tc rd", "question many.example.org. IN A", *want[:29]])
            with Stream(server.port) as client:
                whole = reply_lines(client.ask(struct.pack(">H", len(asked)) + asked))
            rows.equal("over TCP it is whole", [line for line in whole if line.startswith("answer")], want)
            rows.row("without TC, and with the zone's NS and its address", whole[0] == "NOERROR qr aa rd" and len(whole) == 104, (whole[0], len(whole)))


def ends(rows):
    with Served(WHOAMI, "--queries", "2") as server:
        rows.row("--queries 2 serves", server.is_serving(QUERY))
        with Stream(server.port) as client:
            rows.row("two queries over TCP", client.ask() is not None and client.ask() is not None)
        began = time.monotonic()
        rows.equal("the run ends with status 0", server.status(), 0)
        rows.row("and soon", time.monotonic() - began < 20)


def main():
    needs_program()
    rows = Rows()
    soft, hard = resource.getrlimit(resource.RLIMIT_NOFILE)
    resource.setrlimit(resource.RLIMIT_NOFILE, (min(hard, 8192) if hard > 0 else 8192, hard))
    with Served(WHOAMI) as server:
        rows.row("the program serves", server.is_serving(QUERY))
        for check in [pieces, pipelined, torn, never_reads, stalled, of_one_address, bound, with_dig, with_dnsperf]:
            check(rows, server.port)
        rows.row("it runs on", server.process.poll() is None)
    few_descriptors(rows)
    truncated(rows)
    ends(rows)
    rows.end()


if __name__ == "__main__":
    main()
