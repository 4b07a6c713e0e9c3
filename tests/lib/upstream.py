"""A scripted upstream on loopback, for the scenarios: what it replies by name and type, over UDP and TCP at one port, and what it was asked.

Its script is a list of lines. `NAME TYPE [WORD ..]` begins what it does for such a question (`*` for any name or type; the first that fits), and
lines `answer RECORD`, `authority RECORD` or `additional RECORD` below it are the records of the reply, as `dig` prints them. Words:
`rcode CODE` the RCODE; `silence` no reply; `other-id` or `other-question` a reply to something else; `before` with one of these two: such a reply, and then
the right one; `truncated` over UDP a reply without records that says so; `delay SECONDS` a reply after that time; `reset` a TCP connection that is closed instead.
"""
import ipaddress
import re
import socket
import struct
import threading
import time

from message import CLASSES, FLAGS, RCODES, TYPES, name_at, name_bytes, name_of, number_of

SECTIONS = ("answer", "authority", "additional")


def data_bytes(kind, words):
    """The data of a record from its words."""
    if kind == "A":
        return ipaddress.IPv4Address(words[0]).packed
    if kind == "AAAA":
        return ipaddress.IPv6Address(words[0]).packed
    if kind in ("NS", "CNAME", "PTR"):
        return name_bytes(words[0])
    if kind == "MX":
        return struct.pack(">H", int(words[0])) + name_bytes(words[1])
    if kind == "SOA":
        return name_bytes(words[0]) + name_bytes(words[1]) + struct.pack(">5I", *map(int, words[2:]))
    if kind == "TXT":
        return b"".join(bytes([len(text)]) + text.encode() for text in re.findall(r'"([^"]*)"', " ".join(words)))
    raise ValueError(f"a record of a type that a scripted upstream doesn't write: {kind}")


def record_bytes(text):
    owner, ttl, class_, kind, *words = text.split()
    data = data_bytes(kind, words)
    return name_bytes(owner) + struct.pack(">HHIH", number_of(TYPES, kind, "TYPE"), number_of(CLASSES, class_, "CLASS"), int(ttl), len(data)) + data


class Rule:
    """What it does for a question."""

    def __init__(self, name, kind, words):
        self.name, self.kind = name.rstrip(".").lower(), kind
        self.rcode, self.delay, self.words = 0, 0.0, set()
        self.records = {section: [] for section in SECTIONS}
        words = list(words)
        while words:
            word = words.pop(0)
            if word == "rcode":
                self.rcode = RCODES.index(words.pop(0))
            elif word == "delay":
                self.delay = float(words.pop(0))
            elif word in ("silence", "other-id", "other-question", "before", "truncated", "reset"):
                self.words.add(word)
            else:
                raise ValueError(f"unknown word of an upstream: {word}")

    def fits(self, name, kind):
        return self.name in ("*", name.rstrip(".").lower()) and self.kind in ("*", kind)

    def reply(self, number, question, is_truncated):
        counts, body = [0, 0, 0], b""
        if not is_truncated:
            counts = [len(self.records[section]) for section in SECTIONS]
            body = b"".join(record_bytes(text) for section in SECTIONS for text in self.records[section])
        flags = 0x8180 | self.rcode | (0x0200 if is_truncated else 0)
        return struct.pack(">HHHHHH", number, flags, 1, *counts) + question + body

    def replies(self, message, at, over):
        """The messages that it sends for a query whose question ends at an offset."""
        number, question = struct.unpack(">H", message[:2])[0], message[12:at]
        right = self.reply(number, question, "truncated" in self.words and over == "udp")
        wrong = []
        if "other-id" in self.words:
            wrong.append(self.reply(number ^ 0x5555, question, False))
        if "other-question" in self.words:
            wrong.append(self.reply(number, name_bytes("other.invalid") + question[-4:], False))
        if "silence" in self.words:
            return []
        return [*wrong, right] if not wrong or "before" in self.words else wrong


def rules_of(lines):
    rules = []
    for line in lines:
        words = line.split()
        if words and words[0] in SECTIONS:
            rules[-1].records[words[0]].append(" ".join(words[1:]))
        elif words:
            rules.append(Rule(words[0], words[1], words[2:]))
    return rules


class Upstream:
    """One upstream, which serves until it is ended."""

    def __init__(self, lines):
        self.rules, self.asked, self.lock, self.is_ended = rules_of(lines), [], threading.Lock(), False
        while True:
            self.udp = socket.socket(socket.AF_INET, socket.SOCK_DGRAM)
            self.udp.bind(("127.0.0.1", 0))
            self.port = self.udp.getsockname()[1]
            self.tcp = socket.socket(socket.AF_INET, socket.SOCK_STREAM)
            self.tcp.setsockopt(socket.SOL_SOCKET, socket.SO_REUSEADDR, 1)
            try:
                self.tcp.bind(("127.0.0.1", self.port))
                break
            except OSError:
                self.udp.close()
                self.tcp.close()
        self.tcp.listen(16)
        for serves in (self.serve_udp, self.serve_tcp):
            threading.Thread(target=serves, daemon=True).start()

    def taken(self, message, over):
        """Notes what was asked, and gives the rule for it with the offset behind the question, or None."""
        if len(message) < 17:
            return None
        name, at = name_at(message, 12)
        kind, _ = struct.unpack(">HH", message[at:at + 4])
        flags = struct.unpack(">H", message[2:4])[0]
        text = " ".join([over, name, name_of(TYPES, kind, "TYPE"), *(word for word, bit in FLAGS if flags & bit)])
        with self.lock:
            self.asked.append(text)
        rule = next((rule for rule in self.rules if rule.fits(name, name_of(TYPES, kind, "TYPE"))), None)
        return (rule, at + 4) if rule else None

    def take_asked(self):
        """What was asked since the last time, a line each."""
        with self.lock:
            asked, self.asked = self.asked, []
        return asked

    def serve_udp(self):
        while True:
            try:
                message, client = self.udp.recvfrom(65535)
            except OSError:
                return
            threading.Thread(target=self.answer_udp, args=(message, client), daemon=True).start()

    def answer_udp(self, message, client):
        found = self.taken(message, "udp")
        if found:
            rule, at = found
            time.sleep(rule.delay)
            for reply in rule.replies(message, at, "udp"):
                try:
                    self.udp.sendto(reply, client)
                except OSError:
                    return

    def serve_tcp(self):
        while True:
            try:
                connection, _ = self.tcp.accept()
            except OSError:
                return
            threading.Thread(target=self.answer_tcp, args=(connection,), daemon=True).start()

    def answer_tcp(self, connection):
        with connection:
            try:
                stream = connection.makefile("rb")
                while len(head := stream.read(2)) == 2:
                    message = stream.read(int.from_bytes(head, "big"))
                    found = self.taken(message, "tcp")
                    if found and "reset" in found[0].words:
                        return
                    if found:
                        rule, at = found
                        time.sleep(rule.delay)
                        for reply in rule.replies(message, at, "tcp"):
                            connection.sendall(struct.pack(">H", len(reply)) + reply)
            except OSError:
                return

    def end(self):
        for it in (self.udp, self.tcp):
            try:
                it.shutdown(socket.SHUT_RDWR)
            except OSError:
                pass
            it.close()
