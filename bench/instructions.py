#!/usr/bin/env python3
"""User instructions a query of the built server, by callgrind, over loopback: one figure a case.

Two runs of each case, of 2,000 and of 22,000 queries; the difference over 20,000 takes the start out. Each query waits for its
reply. Wants valgrind and the built program (make build). With words, the cases alone that have them all; with --functions, what the
functions of the first of these cost, for one query.
"""
import os
import re
import shutil
import socket
import subprocess
import sys
import tempfile
import time

from callgrind import collected, under

TOP = os.path.dirname(os.path.dirname(os.path.abspath(__file__)))
PROGRAM = os.environ.get("DNSCHAIN_UNDER_TEST", os.path.join(TOP, "crates", "dnschain", "out", "dnschain"))
FEW, MANY = 2_000, 22_000
SECONDS = 600


def name(*labels):
    return b"".join(bytes([len(label)]) + label for label in labels) + b"\x00"


def query(owner, kind=1, opt=b""):
    head = bytes.fromhex("12340100000100000000") + (b"\x00\x01" if opt else b"\x00\x00")
    return head + owner + kind.to_bytes(2, "big") + b"\x00\x01" + opt


OPT = bytes.fromhex("0000291000000080000000")
TWO = name(b"example", b"org")
THREE = name(b"www", b"example", b"org")
TEN = name(*[b"label%d" % number for number in range(8)], b"example", b"org")

WHOAMI = ".:%d {\n\twhoami\n}\n"
ERRORS = ".:%d {\n\terrors\n\twhoami\n}\n"
SINKHOLE = ".:%d {\n\tsinkhole 192.0.2.99\n\twhoami\n}\n"
RELOAD = ".:%d {\n\treload\n\twhoami\n}\n"
ZONE = "example.org:%d {\n\tfile FOLDER/db\n}\n"
LONG_ZONE = "example.org:%d {\n\tfile FOLDER/long\n}\n"
HOST = name(b"h617", b"example", b"org")
WILD = name(b"x", b"w", b"example", b"org")
ABSENT = name(b"nope", b"example", b"org")
BELOW = name(b"x", b"sub", b"example", b"org")
CUT = name(b"sub", b"example", b"org")
AS_LONG = name(b"abcd", b"sub", b"example", b"org")


def zone(form):
    """A zone of 1,000 hosts, whose names are of this form."""
    return "\n".join([
        "$TTL 300", "@ SOA ns admin 1 7200 3600 1209600 60", "@ NS ns", "ns A 192.0.2.53", "*.w A 192.0.2.10", "sub NS ns.sub", "ns.sub A 192.0.2.54",
        *(f"{form.format(k)} A 10.9.{k // 256}.{k % 256}" for k in range(1000)), "",
    ])


HOSTS = ".:%d {\n\thosts FOLDER/hosts\n}\n"
MANY_HOSTS = ".:%d {\n\thosts FOLDER/many\n}\n"
TEMPLATE = ".:%d {\n\ttemplate IN A {\n\t\tmatch \"^h(?P<n>[0-9]+)\\.example\\.org\\.$\"\n\t\tanswer \"{{ .Name }} 60 IN A 10.9.2.{{ .Group.n }}\"\n\t}\n}\n"
CACHE = ".:%d {\n\tcache\n\thosts FOLDER/hosts\n}\n"
FULL_CACHE = ".:%d {\n\tcache {\n\t\tsuccess 8\n\t}\n\thosts FOLDER/hosts\n}\n"
REWRITE = ".:%d {\n\trewrite name suffix .pub.test .example.org answer auto\n\thosts FOLDER/hosts\n}\n"
DNS64 = ".:%d {\n\tdns64\n\thosts FOLDER/hosts\n}\n"
DNS64_POINTS = ".:%d {\n\tdns64 {\n\t\tallow_ipv4\n\t\tptr\n\t}\n\thosts FOLDER/hosts\n}\n"
NUMBERED = name(b"h105", b"example", b"org")
PUBLIC = name(b"h617", b"pub", b"test")
# h617 stands at 10.9.0.77: that address behind the prefix of dns64, behind another one, and as it is.
POINTED = name(*b"d 4 0 0 9 0 a 0 0 0 0 0 0 0 0 0 0 0 0 0 0 0 0 0 b 9 f f 4 6 0 0 ip6 arpa".split())
NOT_POINTED = name(*b"d 4 0 0 9 0 a 0 0 0 0 0 0 0 0 0 0 0 0 0 0 0 0 0 c 9 f f 4 6 0 0 ip6 arpa".split())
REVERSE = name(*b"77 0 9 10 in-addr arpa".split())
# Names that take turns, so that a cache which keeps one a shard has lost each when it is asked again.
TURNS = [query(name(b"h%d" % number, b"example", b"org")) for number in range(1000)]


def hosts(count):
    """A hosts file of so many names, eight with an address."""
    return "".join(f"10.9.{k // 2048}.{k // 8 % 256} " + " ".join(f"h{j}.example.org" for j in range(k, k + 8)) + "\n" for k in range(0, count, 8))


FILES = {"db": zone("h{}"), "long": zone("host{:04}"), "hosts": hosts(1000), "many": hosts(40000)}

CASES = [
    ("whoami, 2 labels", WHOAMI, query(TWO)),
    ("whoami, 2 labels, OPT with DO", WHOAMI, query(TWO, opt=OPT)),
    ("whoami, 3 labels", WHOAMI, query(THREE)),
    ("whoami, 10 labels", WHOAMI, query(TEN)),
    ("whoami, 2 labels, with reload", RELOAD, query(TWO)),
    ("errors in front of whoami, 2 labels", ERRORS, query(TWO)),
    ("zone of 1,000 names: A with NS and its address", ZONE, query(HOST)),
    ("the same by a wildcard", ZONE, query(WILD)),
    ("the same: NXDOMAIN with SOA", ZONE, query(ABSENT)),
    ("the same: a referral with its address", ZONE, query(BELOW)),
    ("the same for the cut itself", ZONE, query(CUT)),
    ("the same where the zone's names are as long as the asked one", LONG_ZONE, query(AS_LONG)),
    ("the zone's origin, without such a record, with the SOA", ZONE, query(TWO)),
    ("a hosts file of 1,000 names: A", HOSTS, query(HOST)),
    ("the same of 40,000 names", MANY_HOSTS, query(HOST)),
    ("the same: a name that isn't listed, SERVFAIL", MANY_HOSTS, query(ABSENT)),
    ("a cache in front of that hosts file: a hit", CACHE, query(HOST)),
    ("the hosts file: 1,000 names in turn", HOSTS, TURNS),
    ("the same behind a cache that is full: a miss, a put that evicts", FULL_CACHE, TURNS),
    ("a template of one pattern with a group and one answer: A", TEMPLATE, query(NUMBERED)),
    ("the same: a name that the pattern doesn't match, SERVFAIL", TEMPLATE, query(ABSENT)),
    ("a rewrite of a suffix, with answer auto, in front of a hosts file of 1,000 names: A", REWRITE, query(PUBLIC)),
    ("a sinkhole in front of whoami: A", SINKHOLE, query(TWO)),
    ("the same: AAAA, by whoami", SINKHOLE, query(TWO, 28)),
    ("dns64 in front of that hosts file: A, which it leaves alone", DNS64, query(HOST)),
    ("the same: AAAA of a client that isn't allowed", DNS64, query(HOST, 28)),
    ("without dns64: AAAA of that name, which has an A alone", HOSTS, query(HOST, 28)),
    ("dns64 with its options: A", DNS64_POINTS, query(HOST)),
    ("the same: AAAA, which is made of the A", DNS64_POINTS, query(HOST, 28)),
    ("the same: PTR of an address behind the prefix, with a CNAME in front", DNS64_POINTS, query(POINTED, 12)),
    ("the same: PTR of an address behind another prefix", DNS64_POINTS, query(NOT_POINTED, 12)),
    ("without dns64: PTR of an address behind another prefix", HOSTS, query(NOT_POINTED, 12)),
    ("without dns64: PTR of that address of IPv4", HOSTS, query(REVERSE, 12)),
    ("a response, which gets no reply", WHOAMI, query(TWO)[:2] + b"\x81" + query(TWO)[3:]),
]


def count(text, asked, queries, folder, answered):
    """Instructions of a run of so many queries: one message again and again, or those of a list in turn."""
    messages = asked if isinstance(asked, list) else [asked]
    with socket.socket(socket.AF_INET, socket.SOCK_DGRAM) as probe:
        probe.bind(("127.0.0.1", 0))
        port = probe.getsockname()[1]
    conf = os.path.join(folder, "Corefile")
    with open(conf, "w") as file:
        file.write(text.replace("FOLDER", folder) % port)
    for path, lines in FILES.items():
        with open(os.path.join(folder, path), "w") as file:
            file.write(lines)
    out = os.path.join(folder, "callgrind.out")
    server = subprocess.Popen(
        [*under(out), PROGRAM, "serve", "--conf", conf, "--queries", str(queries)],
        stdout=subprocess.DEVNULL, stderr=subprocess.PIPE,
    )
    try:
        with socket.socket(socket.AF_INET, socket.SOCK_DGRAM) as client:
            client.connect(("127.0.0.1", port))
            client.settimeout(0.2)
            end = time.monotonic() + SECONDS
            sent = 0
            while server.poll() is None and time.monotonic() < end:
                try:
                    client.send(messages[sent % len(messages)])
                    if answered:
                        client.recv(65535)
                    sent += 1
                    if not answered and sent % 64 == 0:
                        time.sleep(0.002)
                except (TimeoutError, ConnectionRefusedError):
                    time.sleep(0.02)
        server.wait(SECONDS)
    finally:
        if server.poll() is None:
            server.kill()
    return collected(server.stderr.read().decode()), out


def load(queries, folder):
    """Instructions of the program's own load, its journals and all."""
    words = [*under(os.path.join(folder, "callgrind.out")), PROGRAM, "load", str(queries)]
    return collected(subprocess.run(words, capture_output=True, text=True, check=True, timeout=SECONDS).stderr)


def functions(folder, words):
    _, text, message = next(case for case in CASES if all(word in case[0] for word in words))
    _, out = count(text, message, MANY, folder, True)
    said = subprocess.run(["callgrind_annotate", "--inclusive=no", out], capture_output=True, text=True).stdout
    for line in said.splitlines():
        found = re.match(r"\s*([\d,]+) \(\s*[\d.]+%\)\s+(.*)", line)
        if found:
            total = int(found.group(1).replace(",", ""))
            if total > MANY * 5:
                print(f"{total / MANY:8.0f}  {found.group(2)[:150]}")


def main():
    if shutil.which("valgrind") is None or not os.access(PROGRAM, os.X_OK):
        print("skipped: there is no valgrind, or the program isn't built")
        return
    with tempfile.TemporaryDirectory() as folder:
        words = [word for word in sys.argv[1:] if word != "--functions"]
        if "--functions" in sys.argv:
            functions(folder, words)
            return
        for case, text, message in CASES:
            if not all(word in case for word in words):
                continue
            answered = "no reply" not in case
            few = count(text, message, FEW, folder, answered)[0]
            many = count(text, message, MANY, folder, answered)[0]
            print(f"{(many - few) / (MANY - FEW):8.0f}  {case}", flush=True)
        print(f"{(load(MANY, folder) - load(FEW, folder)) / (MANY - FEW):8.0f}  the program's own load, in memory, with its journals", flush=True)


if __name__ == "__main__":
    main()
