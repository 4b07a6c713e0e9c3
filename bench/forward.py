#!/usr/bin/env python3
"""What it costs to pass a query on: CPU time a query of the built server beside dnsmasq, dnsdist and Unbound, each in front of one NSD
on loopback and without a cache, in one run; user instructions a query by callgrind; queries a second where the upstream takes 20 ms;
and how long local queries take while workers wait for an upstream that is silent.

A client in C keeps so many queries under way. The order of the servers turns in each round, and the ratio to dnsmasq of the same round
counts, since the time itself is the machine's. A server that isn't installed is left out. Wants a C compiler, valgrind and NSD. Nothing
here is a test.
"""
import os
import shutil
import socket
import statistics
import subprocess
import sys
import tempfile
import threading
import time

TOP = os.path.dirname(os.path.dirname(os.path.abspath(__file__)))
sys.path.insert(0, os.path.join(TOP, "tests", "lib"))
from callgrind import collected, under  # noqa: E402
from load import ASKS, built, queries_file, spent  # noqa: E402
from message import query_bytes  # noqa: E402
from program import PROGRAM, Client, free_port  # noqa: E402
from servers import NSD, Server, nsd, write  # noqa: E402

HOSTS, ASKED, ROUNDS = 1_000, 40_000, 5
# The client's threads, and the sockets and queries under way of each.
THREADS, SOCKETS, WINDOW = 1, 16, 4
FEW, MANY, SECONDS = 500, 5_500, 600
DELAY, WAITED = 0.02, 3.0
LOCAL, HELD = 1_000, (1, 3)

FORWARD = ".:%d {\n\tforward . 127.0.0.1:%d%s\n}\n"
DNSDIST = 'setLocal("127.0.0.1:{port}")\naddACL("127.0.0.0/8")\nnewServer{{address="127.0.0.1:{to}", healthCheckMode="up"}}\nsetSecurityPollSuffix("")\n'
UNBOUND = """server:
  interface: 127.0.0.1@{port}
  num-threads: 1
  username: ""
  chroot: ""
  directory: "{room}"
  pidfile: "{room}/unbound.pid"
  use-syslog: no
  do-daemonize: no
  do-not-query-localhost: no
  module-config: "iterator"
  msg-cache-size: 0
  rrset-cache-size: 0
  cache-max-ttl: 0
  cache-max-negative-ttl: 0
  local-zone: "example.org" nodefault
forward-zone:
  name: "."
  forward-addr: 127.0.0.1@{to}
remote-control:
  control-enable: no
"""


def dnschain(room, to, workers, body=""):
    port = free_port()
    conf = write(room, f"Corefile{workers}", FORWARD % (port, to, body))
    return Server(f"dnschain, {workers} workers", [PROGRAM, "serve", "--conf", conf, "--workers", str(workers)], port, room)


def dnsmasq(room, to):
    port = free_port()
    words = ["dnsmasq", "-k", "-C", "/dev/null", f"--port={port}", "--listen-address=127.0.0.1", "--bind-interfaces", "--no-resolv", "--no-hosts",
             f"--server=127.0.0.1#{to}", "--cache-size=0", "--user=root", f"--pid-file={room}/dnsmasq.pid", "--dns-forward-max=1000"]
    return Server("dnsmasq", words, port, room)


def dnsdist(room, to):
    port = free_port()
    return Server("dnsdist", ["dnsdist", "--supervised", "-C", write(room, "dnsdist.conf", DNSDIST.format(port=port, to=to))], port, room)


def unbound(room, to):
    port = free_port()
    return Server("Unbound", ["unbound", "-d", "-c", write(room, "unbound.conf", UNBOUND.format(port=port, to=to, room=room))], port, room)


def upstream(room):
    lines = "".join(f"h{number:03} A 10.9.{number // 256}.{number % 256}\n" for number in range(HOSTS))
    server = nsd(room, [("example.org", write(room, "db", "$TTL 300\n@ SOA ns admin 1 7200 3600 1209600 60\n@ NS ns\nns A 192.0.2.53\n" + lines))])
    if not server.is_serving(query_bytes(["example.org", "SOA"])):
        sys.exit("NSD doesn't serve")
    return server


def spent_on(server, asks, queries, asked):
    """User and system time a query, in microseconds, and how many of the queries got no reply."""
    before = spent(server.process.pid)
    said = subprocess.run([asks, *map(str, (server.port, THREADS, SOCKETS, WINDOW, asked)), queries], capture_output=True, check=True)
    user, system = (now - then for now, then in zip(spent(server.process.pid), before))
    sent, got = map(int, said.stdout.split())
    return user / got * 1e6, system / got * 1e6, sent - got


def beside(room, to):
    """CPU time a query of each server, and its ratio to dnsmasq's."""
    asks = built(room, "asks", ASKS)
    queries = queries_file(room, [query_bytes([f"h{number:03}.example.org", "A"], number) for number in range(HOSTS)])
    servers = [dnschain(room, to, 1), dnschain(room, to, 4)]
    servers += [start(room, to) for name, start in (("dnsmasq", dnsmasq), ("dnsdist", dnsdist), ("unbound", unbound)) if shutil.which(name)]
    times = {server.name: [] for server in servers}
    try:
        for server in servers:
            if not server.is_serving(query_bytes(["h001.example.org", "A"])):
                sys.exit(f"{server.name} doesn't serve")
        for turn in range(ROUNDS):
            for at in range(len(servers)):
                server = servers[(at + turn) % len(servers)]
                user, system, lost = spent_on(server, asks, queries, ASKED)
                times[server.name].append(user + system)
                print(f"  {server.name}: {user + system:.1f} us a query, {user:.1f} of them user; {lost} of {ASKED} lost", flush=True)
    finally:
        for server in servers:
            server.end()
    for name, found in times.items():
        ratio = statistics.median(mine / other for mine, other in zip(found, times.get("dnsmasq", found)))
        print(f"{name}: {statistics.median(found):.1f} us a query, {ratio:.2f} of dnsmasq's")


def counted(room, to, queries, body):
    """User instructions of a run of so many queries that wait for their replies."""
    port = free_port()
    conf = write(room, "counted", FORWARD % (port, to, body))
    words = [*under(os.path.join(room, "callgrind.out")), PROGRAM, "serve", "--conf", conf, "--queries", str(queries)]
    server = subprocess.Popen(words, stdout=subprocess.DEVNULL, stderr=subprocess.PIPE)
    end, number = time.monotonic() + SECONDS, 0
    with Client(port) as client:
        while server.poll() is None and time.monotonic() < end:
            number += client.ask(query_bytes([f"h{number % HOSTS:03}.example.org", "A"]), 0.5) is not None
    if server.poll() is None:
        server.kill()
    return collected(server.stderr.read().decode())


def instructions(room, to):
    for title, body in [("over UDP", ""), ("over TCP by a connection that is kept", " {\n\t\tforce_tcp\n\t}")]:
        few, many = (counted(room, to, queries, body) for queries in (FEW, MANY))
        print(f"{(many - few) / (MANY - FEW):.0f} user instructions a query that is passed on {title}", flush=True)


class Slow:
    """An upstream over UDP that answers behind a delay, or never."""

    def __init__(self, delay):
        self.socket = socket.socket(socket.AF_INET, socket.SOCK_DGRAM)
        self.socket.bind(("127.0.0.1", 0))
        self.port, self.delay = self.socket.getsockname()[1], delay
        threading.Thread(target=self.serve, daemon=True).start()

    def serve(self):
        while True:
            ask, client = self.socket.recvfrom(4096)
            if self.delay is not None:
                reply = ask[:2] + b"\x81\x80" + ask[4:]
                threading.Timer(self.delay, self.socket.sendto, (reply, client)).start()


def missed(room):
    """Queries a second that are passed on to an upstream that takes 20 ms, by how many workers a port has."""
    slow, asks = Slow(DELAY), built(room, "asks", ASKS)
    queries = queries_file(room, [query_bytes(["www.example.org", "A"])])
    for workers in (1, 4, 16):
        server = dnschain(room, slow.port, workers)
        try:
            server.is_serving(query_bytes(["www.example.org", "A"]))
            asked = int(workers / DELAY * WAITED)
            start = time.monotonic()
            said = subprocess.run([asks, *map(str, (server.port, 1, 64, 1, asked)), queries], capture_output=True, check=True)
            took = time.monotonic() - start
            print(f"{workers} workers, an upstream that takes {DELAY * 1000:.0f} ms: {int(said.stdout.split()[1]) / took:.0f} a second, {workers / DELAY:.0f} at most")
        finally:
            server.end()


def local_while_held(room):
    """How long local queries take while some of four workers wait for an upstream that is silent."""
    quiet = Slow(None)
    local = query_bytes(["b.test", "A"])
    for held in HELD:
        port = free_port()
        text = f"a.test:{port} {{\n\tforward . 127.0.0.1:{quiet.port}\n}}\nb.test:{port} {{\n\twhoami\n}}\n"
        server = Server("dnschain", [PROGRAM, "serve", "--conf", write(room, "held", text), "--workers", "4"], port, room)
        try:
            server.is_serving(local)
            took = []
            while len(took) < LOCAL:
                waiting = [Client(port) for _ in range(held)]
                for client in waiting:
                    client.send(query_bytes(["x.a.test", "A"]))
                time.sleep(0.02)
                end = time.monotonic() + 0.15
                while time.monotonic() < end and len(took) < LOCAL:
                    with Client(port) as client:
                        start = time.monotonic()
                        client.ask(local, 5.0)
                        took.append((time.monotonic() - start) * 1000)
                for client in waiting:
                    client.ask(b"", 3.0)
                    client.socket.close()
            took.sort()
            print(f"{held} of 4 workers wait: local queries take {statistics.median(took):.2f} ms, 99 of 100 at most {took[len(took) * 99 // 100]:.2f} ms")
        finally:
            server.end()


def main():
    if NSD is None or shutil.which("valgrind") is None or not os.access(PROGRAM, os.X_OK):
        print("skipped: there is no NSD, no valgrind, or the program isn't built")
        return
    with tempfile.TemporaryDirectory() as room:
        os.chmod(room, 0o755)
        server = upstream(room)
        try:
            if "--cpu" not in sys.argv:
                instructions(room, server.port)
            beside(room, server.port)
        finally:
            server.end()
        missed(room)
        local_while_held(room)


if __name__ == "__main__":
    main()
