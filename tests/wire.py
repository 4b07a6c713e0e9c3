"""100,000 mutated messages to the program over loopback: it answers as the wire format says, beside what dnspython reads."""
import os
import random
import sys
import time

sys.path.insert(0, os.path.join(os.path.dirname(os.path.abspath(__file__)), "lib"))
sys.path.append("/usr/lib/python3/dist-packages")
from program import Client, Rows, Served, needs_program  # noqa: E402
from wire_format import name, spells  # noqa: E402

try:
    import dns.exception
    import dns.message
    import dns.rdataclass
except ImportError:
    dns = None

WHOAMI = ".:{port} {\n\twhoami\n}\n"
MESSAGES = 100_000
SECONDS = 300

HEAD = "123401000001{an}{ns}{ar}"
NAME = "076578616d706c65036f726700"


def message(an=0, ns=0, ar=0, rest=""):
    counts = {"an": f"{an:04x}", "ns": f"{ns:04x}", "ar": f"{ar:04x}"}
    return bytes.fromhex(HEAD.format(**counts) + NAME + "00010001" + rest)


OPT = "00002904d000008000" + "0000"
SEEDS = [
    message(),
    message(ar=1, rest=OPT),
    message(ar=1, rest="00002904d0000000" + "00000c000a00080102030405060708"),
    message(an=1, rest="c00c0001000100000e100004c0000201"),
    message(an=1, rest="c00c000500010000003c0006037777" + "77c00c"),
    message(ns=1, rest="c00c000600010000003c001c0161c00c0162c00c0000000100000002000000030000000400000005"),
    message(an=2, ar=1, rest="c00c001000010000003c00040361626300000100010000003c0004c0000201" + OPT),
    message(an=1, rest="c00c000f00010000003c000900" + "0a046d61696cc00c"),
    message(an=1, rest="c00c002100010000003c000c00010002003503" + "737276c00c"),
]
GOOD = message()


def mutated(made):
    """One of the seeds with some bytes changed, left out or put in."""
    bytes_ = bytearray(made.choice(SEEDS))
    for _ in range(made.choice([0, 1, 1, 2, 3, 6])):
        kind = made.randrange(4)
        at = made.randrange(len(bytes_)) if bytes_ else 0
        if kind == 0 and bytes_:
            bytes_[at] = made.choice([0, 1, 12, 41, 63, 64, 128, 192, 255, made.randrange(256)])
        elif kind == 1 and bytes_:
            bytes_[at] ^= 1 << made.randrange(8)
        elif kind == 2:
            del bytes_[at:at + made.choice([1, 2, 11])]
        else:
            bytes_[at:at] = made.randbytes(made.choice([1, 2, 4]))
    return bytes(bytes_)


def expected(bytes_):
    """By the header alone: no reply, NOTIMP, or None where it goes on."""
    if len(bytes_) < 12 or bytes_[2] & 128:
        return b""
    if bytes_[2] & 120:
        return bytes_[:2] + bytes([128 | bytes_[2] & 121, 4]) + bytes(8)
    return None


def form_error(bytes_):
    return bytes_[:2] + bytes([128 | bytes_[2] & 1, 1]) + bytes(8)


def is_of(bytes_, reply):
    """The reply has the query's id, QR, RD and CD, and the question as it came, letter for letter."""
    question = name(bytes_, 12)[1] + 4
    return (
        reply[:2] == bytes_[:2]
        and reply[2] & 0xF9 == 0x80 | bytes_[2] & 1
        and reply[3] & 0x70 == bytes_[3] & 0x10
        and reply[4:6] == b"\x00\x01"
        and reply[12:question] == bytes_[12:question]
    )


class Quiet:
    """Messages that get no reply. Behind each 100 of them a query is asked from the same port, and its reply is the first that comes."""

    def __init__(self, port, wrong):
        self.client, self.wrong, self.sent, self.asked = Client(port), wrong, [], 0

    def send(self, bytes_):
        self.client.send(bytes_)
        self.sent.append(bytes_)
        if len(self.sent) == 100:
            self.settle()

    def settle(self):
        self.asked += 1
        number = (self.asked % 65536).to_bytes(2, "big")
        got = self.client.ask(number + GOOD[2:], 5)
        if got is None or got[:2] != number or got[2:4] != b"\x85\x00":
            self.wrong["silence"].extend(self.sent)
        self.sent = []


def main():
    needs_program()
    rows = Rows()
    made = random.Random(4)
    wrong = {"silence": [], "header": [], "form": [], "malformed": [], "well formed": [], "reply": [], "dnspython reads the reply": [], "dnspython reads what was answered": []}
    count = {"silence": 0, "notimp": 0, "formerr": 0, "answered": 0, "compared": 0}
    with Served(WHOAMI) as server:
        rows.row("the program serves", server.is_serving(GOOD))
        rows.equal("all messages were sent", send_all(server, made, count, wrong), MESSAGES)
        with Client(server.port) as client:
            rows.equal("the good query is answered at the end", (client.ask(GOOD) or b"")[2:4], b"\x85\x00")
        full_of_pointers(rows, server)
        rows.equal("it still runs", server.process.poll(), None)
    for what, found in wrong.items():
        rows.row(f"{what}: none is wrong", not found, [bytes_.hex() for bytes_ in found[:3]])
    for what in ["silence", "notimp", "formerr", "answered"]:
        rows.row(f"some got {what}", count[what] > 0, count)
    if dns is None:
        print("skipped: there is no python3-dnspython")
    else:
        rows.row("some were compared with what dnspython reads", count["compared"] > 1000, count)
    rows.end()


def pointers(size):
    """A query of so many bytes: a chain of pointers in the data of a record, and records whose names begin at its end."""
    question = bytes.fromhex("0000010001")
    start = 12 + len(question) + 11
    count = (min(16382, size // 4) - start) // 2
    targets = [12] + [start + 2 * at for at in range(count - 1)]
    chain = b"".join((0xC000 | target).to_bytes(2, "big") for target in targets)
    last = (0xC000 | start + 2 * (count - 1)).to_bytes(2, "big")
    first = bytes.fromhex("00ff00000100000000") + len(chain).to_bytes(2, "big") + chain
    entry = last + bytes.fromhex("00020001000000000002") + last
    entries = (size - 12 - len(question) - len(first)) // len(entry)
    counts = (1).to_bytes(2, "big") + (1 + entries).to_bytes(2, "big") + bytes(4)
    return bytes.fromhex("12340100") + counts + question + first + entry * entries


def full_of_pointers(rows, server):
    """Such a message is read in time linear in its bytes, and a datagram is taken whole."""
    with Client(server.port) as client:
        for size in (1_200, 65_000):
            rows.row(f"a message of {size:,} bytes full of pointers is read", (client.ask(pointers(size)) or b"")[2:4] == b"\x85\x00")
        for _ in range(40):
            client.send(pointers(65_000))
    with Client(server.port) as client:
        rows.row("behind 40 of 65,000 bytes a query is answered soon", client.ask(GOOD, 5) is not None)


def send_all(server, made, count, wrong):
    """Sends the messages one after another, each behind the reply to the one before. How many were sent in time."""
    client, quiet = Client(server.port), Quiet(server.port, wrong)
    end = time.monotonic() + SECONDS
    for sent in range(MESSAGES):
        if time.monotonic() > end:
            client.socket.close()
            return sent
        bytes_ = mutated(made)
        want = expected(bytes_)
        if want == b"":
            quiet.send(bytes_)
            count["silence"] += 1
            continue
        got = client.ask(bytes_, 2)
        if got is None:
            # A lost datagram is asked again from another port, where no late reply comes.
            client.socket.close()
            client = Client(server.port)
            got = client.ask(bytes_, 5)
        check(bytes_, want, got, count, wrong)
    quiet.settle()
    quiet.client.socket.close()
    client.socket.close()
    return MESSAGES


def check(bytes_, want, got, count, wrong):
    if want is not None:
        count["notimp"] += 1
        if got != want:
            wrong["header"].append(bytes_)
        return
    if got is None or len(got) < 12:
        wrong["reply"].append(bytes_)
        return
    if got == form_error(bytes_):
        count["formerr"] += 1
        if spells(bytes_):
            wrong["well formed"].append(bytes_)
    elif not spells(bytes_):
        wrong["malformed"].append(bytes_)
    elif is_of(bytes_, got):
        count["answered"] += 1
    else:
        wrong["form"].append(bytes_)
        return
    if dns is not None:
        compare(bytes_, got, count, wrong)


def compare(bytes_, got, count, wrong):
    """Where dnspython reads the query, it was answered; and it reads every reply."""
    try:
        dns.message.from_wire(got)
    except dns.exception.DNSException:
        wrong["dnspython reads the reply"].append(bytes_)
    try:
        read = dns.message.from_wire(bytes_, ignore_trailing=True, one_rr_per_rrset=True)
    except Exception:  # dnspython refuses more than the format does: bad CAA tags, empty TXT, meta types and the like
        return
    if len(read.question) != 1:
        return
    count["compared"] += 1
    if got == form_error(bytes_) and not is_stricter(bytes_, read):
        wrong["dnspython reads what was answered"].append(bytes_)


def is_stricter(bytes_, read):
    """Where this server's reading is stricter on purpose: data has the form of its type in every class, and no pointer is
    into the header."""
    classes = [rrset.rdclass for section in (read.answer, read.authority, read.additional) for rrset in section]
    if any(found != dns.rdataclass.IN for found in classes):
        return True
    return any(bytes_[at] == 0xC0 and bytes_[at + 1] < 12 for at in range(12, len(bytes_) - 1))


if __name__ == "__main__":
    main()
