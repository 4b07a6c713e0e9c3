"""The program over real sockets, beside the scenarios: the bytes of one reply, dig and kdig, random datagrams, and odd ends."""
import os
import random
import shutil
import socket
import struct
import subprocess
import sys
import tempfile

sys.path.insert(0, os.path.join(os.path.dirname(os.path.abspath(__file__)), "lib"))
from program import PROGRAM, SECONDS, Client, Rows, Served, corefile, free_port, needs_program, status_of  # noqa: E402

NAME = bytes.fromhex("076578616d706c65036f726700")
QUESTION = NAME + bytes.fromhex("00010001")
QUERY = bytes.fromhex("123401000001000000000000") + QUESTION
WHOAMI = ".:{port} {\n\twhoami\n}\n"
USAGE = "usage: dnschain serve --conf FILE [--port N] [--workers N] [--queries N], or dnschain load N"


def reply(port, address):
    """The reply to QUERY for a client at this address and port, by hand (RFC 1035, section 4.1)."""
    kind = b"\x00\x01" if len(address) == 4 else b"\x00\x1c"
    return (
        bytes.fromhex("123485000001000000000002")
        + QUESTION
        + bytes.fromhex("c00c") + kind + bytes.fromhex("000100000000") + struct.pack(">H", len(address)) + address
        + bytes.fromhex("045f756470c00c00210001000000000007") + bytes(4) + struct.pack(">H", port) + b"\x00"
    )


def serves(rows):
    with Served(WHOAMI) as server:
        rows.row("the program serves", server.is_serving(QUERY))
        with Client(server.port) as client:
            rows.equal("a query gets the 69 bytes of its reply", client.ask(QUERY), reply(client.port, bytes([127, 0, 0, 1])))
        with_dig(rows, server)
        random_datagrams(rows, server)


def dig(server, *words):
    """What dig prints, line by line, without blanks at the ends."""
    asked = ["dig", "+time=2", "+tries=2", "@127.0.0.1", "-p", str(server.port), *words]
    return [line.strip() for line in subprocess.run(asked, capture_output=True, text=True, timeout=10).stdout.split("\n")]


def with_dig(rows, server):
    if shutil.which("dig") is None:
        print("skipped: there is no dig")
        return
    for text, words, status, edns in [
        ("dig as it comes, with OPT and a cookie", ["example.org"], "NOERROR", "; EDNS: version: 0, flags:; udp: 1232"),
        ("dig +noedns", ["+noedns", "example.org"], "NOERROR", None),
        ("dig +bufsize=512", ["+bufsize=512", "example.org"], "NOERROR", "; EDNS: version: 0, flags:; udp: 1232"),
        ("dig +dnssec", ["+dnssec", "example.org"], "NOERROR", "; EDNS: version: 0, flags: do; udp: 1232"),
        ("dig ANY", ["+notcp", "ANY", "example.org"], "NOERROR", "; EDNS: version: 0, flags:; udp: 1232"),
        ("dig of class CH", ["CH", "TXT", "version.bind"], "REFUSED", "; EDNS: version: 0, flags:; udp: 1232"),
        ("dig of another opcode", ["+opcode=notify", "+noedns", "example.org"], "NOTIMP", None),
        ("dig +edns=1", ["+edns=1", "+noednsneg", "example.org"], "BADVERS", "; EDNS: version: 0, flags:; udp: 1232"),
    ]:
        lines = dig(server, *words)
        rows.row(f"{text}: {status}", any(f"status: {status}," in line for line in lines), lines)
        rows.equal(f"{text}: its OPT", next((line for line in lines if line.startswith("; EDNS")), None), edns)
        if status == "NOERROR":
            found = [line.split() for line in lines if line and not line.startswith(";")]
            rows.row(f"{text}: its address", ["example.org.", "0", "IN", "A", "127.0.0.1"] in found, lines)
            rows.row(f"{text}: its port", any(row[:6] == ["_udp.example.org.", "0", "IN", "SRV", "0", "0"] for row in found), lines)
    with_kdig(rows, server)


def with_kdig(rows, server):
    if shutil.which("kdig") is None:
        print("skipped: there is no kdig")
        return
    asked = ["kdig", "+timeout=2", "@127.0.0.1", "-p", str(server.port), "example.org"]
    said = subprocess.run(asked, capture_output=True, text=True, timeout=10).stdout
    rows.row("kdig: NOERROR", "status: NOERROR" in said and "127.0.0.1" in said, said)


def random_datagrams(rows, server):
    made = random.Random(1)
    with Client(server.port) as client:
        for _ in range(10_000):
            client.send(made.randbytes(made.randint(0, 600)))
    rows.row("10,000 random datagrams don't end the server", server.is_serving(QUERY))
    rows.equal("it still runs", server.process.poll(), None)


def ends(rows):
    """What a scenario can't say: bytes that aren't text, a long file, a taken port, and a mute standard output."""
    with tempfile.TemporaryDirectory() as room:
        rows.equal("words that aren't UTF-8: status 2", status_of("serve", "--conf", b"\xff"), told(2, USAGE))
        for text, conf, want, line in [
            ("bytes that aren't UTF-8", b"\n# \xff\n", 1, "corefile line 2: not UTF-8"),
            ("more than 1 MiB", b"\n" * 1_048_577, 1, "too many file bytes: 1048577"),
        ]:
            got = status_of("serve", "--conf", corefile(room, conf))
            rows.equal(f"{text}: status {want} and its line", got, told(want, line))
        mute(rows, room)
        with socket.socket(socket.AF_INET, socket.SOCK_DGRAM) as taken, socket.socket(socket.AF_INET6, socket.SOCK_DGRAM) as six:
            port = free_port()
            taken.bind(("0.0.0.0", port))
            six.setsockopt(socket.IPPROTO_IPV6, socket.IPV6_V6ONLY, 1)
            try:
                six.bind(("::", port))
            except OSError:
                pass
            path = corefile(room, WHOAMI.replace("{port}", str(port)))
            why = f"open udp port {port}: address in use\n".encode()
            rows.equal("a taken port: status 3 and its line", status_of("serve", "--conf", path), (3, b"cannot open\n", why))


def told(status, line):
    """A status and what is written with it: its line, or nothing."""
    return status, b"" if line is None else line.encode() + b"\n", b""


def mute(rows, room):
    """Where standard output takes nothing, a refusal's status gives way to that, and Usage stays."""
    if not os.path.exists("/dev/full"):
        print("skipped: there is no /dev/full")
        return
    with open("/dev/full", "wb") as full:
        for text, words, want in [
            ("a missing Corefile", ["serve", "--conf", os.path.join(room, "none")], 3),
            ("no words", [], 2),
            ("an empty Corefile", ["serve", "--conf", corefile(room, "")], 0),
        ]:
            got = subprocess.run([PROGRAM, *words], stdout=full, timeout=SECONDS).returncode
            rows.equal(f"{text}, and a line that can't be written: status {want}", got, want)


def main():
    needs_program()
    rows = Rows()
    serves(rows)
    ends(rows)
    rows.end()


if __name__ == "__main__":
    main()
