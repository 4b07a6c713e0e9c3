"""Fuzzers of what comes over sockets: datagrams, frames over TCP, replies of upstreams. Each holds what the program sends against a reading of the
wire format written apart (wire_format.py) and against what a query of `whoami` or of `forward` means.

A fuzzer takes dice, the time at which it ends and a list for what it finds, and gives how many inputs it tried.
"""
import random
import socket
import struct
import threading
import time

from message import query_bytes
from program import Client, Served
from wire_format import Unspelt, name, record, spells

BURST = 100
SEEDS = [query_bytes(words) for words in (
    ["example.org", "A"], ["example.org", "AAAA", "edns"], ["A.b.Example.ORG", "TXT", "do"], ["x" * 63 + ".org", "MX", "cd", "bufsize=512"],
    [".".join(["abcdefgh"] * 27), "ANY", "nord"], ["example.org", "SRV", "CH"], ["example.org", "A", "version=1"], ["example.org", "A", "opcode=2"])]
RECORDS = [bytes.fromhex(text) for text in (
    "c00c0001000100000e100004c0000201", "c00c000500010000003c00060377777777c00c"[:34], "c00c000600010000003c001c0161c00c0162c00c0000000100000002000000030000000400000005",
    "c00c000f00010000003c0009000a046d61696cc00c", "c00c001000010000003c000403616263", "c00c002100010000003c000c000100020035037376 72c00c".replace(" ", ""),
    "00002904d000008000" + "0000", "00002904d0000000" + "00000c000a00080102030405060708", "c00c010100010000003c00080005697373756561")]


def mutated(dice):
    """A query with records put behind it, and some bytes changed, left out or put in."""
    bytes_ = bytearray(dice.choice(SEEDS))
    for _ in range(dice.choice([0, 0, 1, 2, 8])):
        bytes_ += dice.choice(RECORDS)
        section = dice.choice([6, 8, 10, 10])
        bytes_[section:section + 2] = struct.pack(">H", (struct.unpack(">H", bytes_[section:section + 2])[0] + 1) & 0xFFFF)
    for _ in range(dice.choice([0, 1, 1, 2, 3, 6])):
        at, kind = dice.randrange(len(bytes_) or 1), dice.randrange(5)
        if kind == 0 and bytes_:
            bytes_[at] = dice.choice([0, 1, 12, 41, 63, 64, 128, 192, 255, dice.randrange(256)])
        elif kind == 1 and bytes_:
            bytes_[at] ^= 1 << dice.randrange(8)
        elif kind == 2:
            del bytes_[at:at + dice.choice([1, 2, 11, 40])]
        elif kind == 3:
            bytes_[at:at] = dice.randbytes(dice.choice([1, 2, 4, 300]))
        else:
            bytes_[at:at] = bytes_[at:at + dice.randrange(60)]
    return bytes_


def versions(message):
    """The versions of EDNS that its OPT records name."""
    counts, at, found = struct.unpack(">4H", message[4:12]), name(message, 12)[1] + 4, []
    for _ in range(sum(counts[1:])):
        start = name(message, at)[1]
        _, kind, at = record(message, at)
        if kind == 41:
            found.append(message[start + 5])
    return found


def meant(message):
    """What `whoami` means by a message: None for silence, the whole reply where it has 12 bytes, or the RCODE and the question that it has."""
    if len(message) < 12 or message[2] & 128:
        return None
    if message[2] & 120:
        return message[:2] + bytes([128 | message[2] & 121, 4]) + bytes(8)
    if not spells(message):
        return message[:2] + bytes([128 | message[2] & 1, 1]) + bytes(8)
    end = name(message, 12)[1] + 4
    found = versions(message)
    if found and found[0] > 0:
        rcodes = {16}
    else:
        rcodes = {0} if message[end - 2:end] == b"\x00\x01" else {5}
    return rcodes, message[12:end], bool(found)


def is_meant(message, want, reply):
    if want is None or isinstance(want, (bytes, bytearray)):
        return reply == want
    rcodes, question, has_opt = want
    if len(reply) < 12 + len(question) or not spells(reply) or len(reply) > 65_535:
        return False
    found = versions(reply)
    rcode = reply[3] & 15 | (reply_extension(reply) << 4 if found else 0)
    return reply[:2] == message[:2] and reply[2] & 0xF9 == 128 | message[2] & 1 and reply[12:12 + len(question)] == question \
        and rcode in rcodes and bool(found) == has_opt


def reply_extension(reply):
    """The upper bits of the RCODE in its OPT record, which is the last one."""
    at, start = name(reply, 12)[1] + 4, None
    for _ in range(sum(struct.unpack(">3H", reply[6:12]))):
        start = name(reply, at)[1]
        _, kind, at = record(reply, at)
        if kind == 41:
            return reply[start + 4]
    return 0


def numbered(dice, number):
    message = mutated(dice)
    message[:2] = struct.pack(">H", number)[:len(message[:2])]
    return bytes(message)


def datagrams(dice, until, found):
    """Bursts of datagrams, whose replies may come in any order."""
    tried = 0
    with Served(".:{port} {\n\twhoami\n}\n", "--workers", "2") as server:
        server.is_serving(SEEDS[0])
        with Client(server.port) as client:
            while time.monotonic() < until and not found:
                burst = [numbered(dice, number) for number in range(BURST)]
                waiting = {}
                for message in burst:
                    want = meant(message)
                    if want is not None:
                        waiting[message[:2]] = (message, want)
                    client.send(message)
                tried += len(burst)
                take_replies(client, server, waiting, found)
                if server.process.poll() is not None:
                    found.append(("the program ended", server.process.returncode, [it.hex() for it in burst]))
    return tried


def take_replies(client, server, waiting, found):
    client.socket.settimeout(2)
    while waiting:
        try:
            reply = client.socket.recv(65_535)
        except (TimeoutError, ConnectionRefusedError):
            break
        message, want = waiting.pop(reply[:2], (None, None))
        if message is None or not is_meant(message, want, reply):
            found.append(("a reply that isn't meant", message and message.hex(), reply.hex()))
            return
    for message, want in waiting.values():
        # A datagram that was lost is asked again, from another port.
        with Client(server.port) as other:
            reply = other.ask(message, 5)
        if reply is None or not is_meant(message, want, reply):
            found.append(("no reply that is meant", message.hex(), reply and reply.hex()))


def exactly(stream, count):
    got = stream.read(count)
    return got if got is not None and len(got) == count else None


def frames(dice, until, found):
    """Messages over TCP, cut anywhere, with the end or a torn one behind them: the replies come in order, and then the end."""
    tried = 0
    with Served(".:{port} {\n\twhoami\n}\n", "--workers", "2") as server:
        server.is_serving(SEEDS[0])
        while time.monotonic() < until and not found:
            messages = [bytes(mutated(dice)) for _ in range(dice.choice([1, 3, 30, 200]))]
            tail = dice.choice([b"", b"\0", b"\0\x1d" + dice.randbytes(dice.randrange(28)), b"\xff\xff" + dice.randbytes(100)])
            tried += len(messages)
            try:
                why = one_stream(dice, server, messages, tail)
            except OSError as error:
                why = ("a connection failed", repr(error))
            if why is not None:
                found.append((*why, [it.hex() for it in messages], tail.hex()))
            if server.process.poll() is not None:
                found.append(("the program ended", server.process.returncode, [it.hex() for it in messages], tail.hex()))
    return tried


def one_stream(dice, server, messages, tail):
    data = b"".join(struct.pack(">H", len(it)) + it for it in messages) + tail
    wanted = [(it, meant(it)) for it in messages if meant(it) is not None]
    with socket.create_connection(("127.0.0.1", server.port), 5) as client:
        client.settimeout(10)
        sender = threading.Thread(target=send_cut, args=(client, data, random.Random(dice.random())), daemon=True)
        sender.start()
        stream = client.makefile("rb")
        for message, want in wanted:
            head = exactly(stream, 2)
            reply = head and exactly(stream, int.from_bytes(head, "big"))
            if reply is None or not is_meant(message, want, reply):
                return "a reply over TCP that isn't meant", message.hex(), reply and reply.hex()
        sender.join(10)
        try:
            rest = stream.read(1)
        except ConnectionResetError:
            rest = b""
        return ("bytes behind the last reply", rest.hex()) if rest else None


def send_cut(client, data, dice):
    try:
        at = 0
        while at < len(data):
            end = at + dice.choice([1, 2, 7, 100, 5_000, 100_000])
            client.sendall(data[at:end])
            at = end
        client.shutdown(socket.SHUT_WR)
    except OSError:
        pass


def agrees(ask, reply):
    """Whether a datagram of an upstream answers an ask."""
    if len(reply) < 12 or not reply[2] & 128 or reply[2] & 120 or reply[:2] != ask[:2] or not spells(reply):
        return False
    (labels, end), (mine, own) = name(reply, 12), name(ask, 12)
    same = [it.lower() for it in labels] == [it.lower() for it in mine] and reply[end:end + 4] == ask[own:own + 4]
    return same and reply_extension(reply) == 0


class Answering:
    """An upstream over UDP that sends a mutated reply, and three to other asks behind it, which end the try."""

    def __init__(self, dice):
        self.dice, self.last = dice, None
        self.socket = socket.socket(socket.AF_INET, socket.SOCK_DGRAM)
        self.socket.bind(("127.0.0.1", 0))
        self.port = self.socket.getsockname()[1]
        threading.Thread(target=self.serve, daemon=True).start()

    def serve(self):
        while True:
            try:
                ask, client = self.socket.recvfrom(65_535)
            except ConnectionRefusedError:
                continue
            except OSError:
                return
            reply = self.reply(ask)
            self.last = (ask, reply)
            for message in (reply, *[bytes([ask[0] ^ 0x55, *ask[1:]])] * 3):
                try:
                    self.socket.sendto(message, client)
                except OSError:
                    pass

    def reply(self, ask):
        message = bytearray(ask)
        message[2:4] = struct.pack(">H", 0x8000 | self.dice.choice([0x0580, 0x0180, 0x0100, 0x0183, 0x0182, 0x0185, 0x0380]))
        if self.dice.random() < 0.7:
            message[10:12] = bytes(2)
            del message[name(ask, 12)[1] + 4:]
        for _ in range(self.dice.choice([0, 1, 2, 3, 30])):
            section = self.dice.choice([6, 6, 8, 10])
            message += self.dice.choice(RECORDS[:6])
            message[section:section + 2] = struct.pack(">H", struct.unpack(">H", message[section:section + 2])[0] + 1)
        for _ in range(self.dice.choice([0, 0, 1, 1, 2, 4])):
            at = self.dice.randrange(len(message))
            if self.dice.random() < 0.7:
                message[at] ^= 1 << self.dice.randrange(8)
            else:
                del message[at:at + self.dice.choice([1, 2, 7])]
        return bytes(message)


def upstreams(dice, until, found):
    """Replies of an upstream: one that answers the ask is passed on with its RCODE and flags, any other is passed over."""
    tried, answered, late = 0, 0, 0
    upstream = Answering(random.Random(dice.random()))
    with Served(f".:{{port}} {{\n\tforward . 127.0.0.1:{upstream.port}\n}}\n", "--workers", "1") as server:
        server.is_serving(SEEDS[0])
        client = Client(server.port)
        while time.monotonic() < until and not found:
            query = bytearray(dice.choice(SEEDS[:5]))
            query[:2] = dice.randbytes(2)
            began, upstream.last = time.monotonic(), None
            got = client.ask(bytes(query), 8)
            tried += 1
            if upstream.last is None or time.monotonic() - began > 0.15:
                # On a busy machine the ask may have ended before its reply came.
                late += 1
                client.socket.close()
                client = Client(server.port)
                time.sleep(0.5)
                continue
            ask, reply = upstream.last
            is_answer = agrees(ask, reply)
            answered += is_answer
            if got is None or not passed_on(bytes(query), ask, reply if is_answer else None, got):
                found.append(("an upstream's reply", bytes(query).hex(), ask.hex(), reply.hex(), is_answer, got and got.hex()))
            if server.process.poll() is not None:
                found.append(("the program ended", server.process.returncode, reply.hex()))
    client.socket.close()
    upstream.socket.close()
    if tried > 200 and not 0 < answered < tried - late:
        found.append(("no reply or every reply was an answer", tried, answered, late))
    print(f"# upstreams: {answered} were answers, {late} too late to tell", flush=True)
    return tried


def passed_on(query, ask, reply, got):
    """Whether the client got what the upstream said, or SERVFAIL where it said nothing that counts."""
    try:
        end = name(query, 12)[1] + 4
        whole = got[:2] == query[:2] and got[12:end] == query[12:end] and spells(got) and ask[12:end] == query[12:end]
    except Unspelt:
        return False
    if not whole:
        return False
    if reply is None:
        return got[3] & 15 == 2 and got[6:10] == bytes(4)
    if got[3] & 15 != reply[3] & 15:
        return False
    # TC is the upstream's, or says that the reply was cut at the client's limit.
    if got[2] & 2:
        return got[2] & 4 == reply[2] & 4
    return got[6:10] == reply[6:10] and got[2] & 6 == reply[2] & 6
