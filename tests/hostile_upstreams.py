"""Upstreams that harm: streams that are reset, dripped, closed in the middle of a message or filled with others, and datagrams in floods. Each query
has a reply in its time, by the next upstream where there is one, and nothing is left behind."""
import os
import socket
import struct
import sys
import threading
import time

sys.path.insert(0, os.path.join(os.path.dirname(os.path.abspath(__file__)), "lib"))
from message import query_bytes, reply_lines  # noqa: E402
from program import Client, Rows, Served, needs_program  # noqa: E402

QUERY = query_bytes(["www.example.org", "A"])
LOCAL = query_bytes(["here.test", "A"])
ADDRESS = "answer www.example.org. 60 IN A 192.0.2.1"
# An ask lasts two seconds at most, and the query that waits for it somewhat longer.
A_TRY = 3.5
WAIT = 8.0
TEXT = """here.test:{port} {
	whoami
}
.:{port} {
	forward . %s {
		policy sequential%s
	}
}
"""


def answer_to(ask):
    """The right answer to an ask for www.example.org A."""
    end = ask.index(b"\0", 12) + 5
    return ask[:2] + b"\x81\x80" + struct.pack(">4H", 1, 1, 0, 0) + ask[12:end] + bytes.fromhex("c00c000100010000003c0004c0000201")


def frame(message):
    return struct.pack(">H", len(message)) + message


def other(answer):
    """An answer to another ask."""
    return bytes([answer[0] ^ 0x55, answer[1]]) + answer[2:]


def reset(client, _):
    client.setsockopt(socket.SOL_SOCKET, socket.SO_LINGER, struct.pack("ii", 1, 0))


def drip(client, answer):
    for byte in frame(answer):
        client.sendall(bytes([byte]))
        time.sleep(1)


def half(client, answer):
    client.sendall(frame(answer)[:20])


def half_a_length(client, _):
    client.sendall(b"\0")


def lying_length(client, answer):
    client.sendall(struct.pack(">H", 65535) + answer)


def empty_frames(client, _):
    client.sendall(bytes(60_000))


def others(client, answer):
    end = time.monotonic() + 3
    while time.monotonic() < end:
        client.sendall(frame(other(answer)) * 500)


def noise(client, _):
    end = time.monotonic() + 3
    while time.monotonic() < end:
        client.sendall(os.urandom(65_536))


def silence(client, _):
    client.settimeout(A_TRY)
    client.recv(1)


class Streams:
    """An upstream over TCP, each of whose connections ends behind what it does with the first ask."""

    def __init__(self, act):
        self.act, self.socket = act, socket.create_server(("127.0.0.1", 0), backlog=64)
        self.port = self.socket.getsockname()[1]
        threading.Thread(target=self.serve, daemon=True).start()

    def serve(self):
        while True:
            try:
                client, _ = self.socket.accept()
            except OSError:
                return
            threading.Thread(target=self.one, args=(client,), daemon=True).start()

    def one(self, client):
        with client:
            try:
                stream = client.makefile("rb")
                ask = stream.read(int.from_bytes(stream.read(2), "big"))
                if len(ask) > 16:
                    self.act(client, answer_to(ask))
            except OSError:
                pass

    def end(self):
        self.socket.close()


def right(client, answer):
    client.sendall(frame(answer))


class Datagrams:
    """An upstream over UDP, which does this with an ask: `act` has its socket, the right answer and the asker's address."""

    def __init__(self, act):
        self.act, self.socket = act, socket.socket(socket.AF_INET, socket.SOCK_DGRAM)
        self.socket.bind(("127.0.0.1", 0))
        self.port = self.socket.getsockname()[1]
        threading.Thread(target=self.serve, daemon=True).start()

    def serve(self):
        while True:
            try:
                ask, client = self.socket.recvfrom(65535)
                if len(ask) > 16:
                    self.act(self.socket, answer_to(ask), client)
            except ConnectionRefusedError:
                pass
            except OSError:
                return

    def end(self):
        self.socket.close()


def flood_of_others(upstream, answer, client):
    for _ in range(3_000):
        upstream.sendto(other(answer), client)


def flood_of_strangers(upstream, answer, client):
    with socket.socket(socket.AF_INET, socket.SOCK_DGRAM) as stranger:
        for _ in range(3_000):
            stranger.sendto(answer[:-4] + b"\xcb\x00\x71\x42", client)
    upstream.sendto(answer, client)


def flood_behind(upstream, answer, client):
    upstream.sendto(answer, client)
    for _ in range(3_000):
        upstream.sendto(other(answer), client)


def no_bytes(upstream, answer, client):
    for _ in range(5):
        upstream.sendto(b"", client)


def large(upstream, answer, client):
    for _ in range(4):
        upstream.sendto(other(answer) + bytes(65_000), client)


def answers(upstream, answer, client):
    upstream.sendto(answer, client)


def said(reply):
    return reply_lines(reply) if reply is not None else None


def held(server):
    return len(os.listdir(f"/proc/{server.process.pid}/fd"))


def asked(server, times):
    """The replies of so many queries in turn, and the longest time that one took."""
    replies, longest = [], 0.0
    with Client(server.port) as client:
        for _ in range(times):
            began = time.monotonic()
            replies.append(said(client.ask(QUERY, WAIT)))
            longest = max(longest, time.monotonic() - began)
    return replies, longest


def one_upstream(rows, title, bad, good, options):
    """A server with the bad upstream in front of the good one, and then with the bad one alone."""
    with Served(TEXT % (f"127.0.0.1:{bad.port} 127.0.0.1:{good.port}", options), "--workers", "1") as server:
        server.is_serving(LOCAL)
        replies, longest = asked(server, 3)
        rows.row(f"{title}: the next upstream answers, in time", all(reply and ADDRESS in reply for reply in replies) and longest < A_TRY, (replies, longest))
        with Client(server.port) as client:
            rows.row(f"{title}: the server goes on", client.ask(LOCAL, 2) is not None and server.process.poll() is None)
        rows.row(f"{title}: no descriptors pile up", held(server) < 40, held(server))
    with Served(TEXT % (f"127.0.0.1:{bad.port}", options), "--workers", "1") as server:
        server.is_serving(LOCAL)
        replies, longest = asked(server, 1)
        rows.row(f"{title}: alone it is SERVFAIL, in time", replies[0] and replies[0][0] == "SERVFAIL qr rd" and longest < A_TRY, (replies, longest))


def streams(rows):
    good = Streams(right)
    for title, act in [("a reset stream", reset), ("a byte a second", drip), ("half a message", half), ("half a length", half_a_length),
                       ("a length that lies", lying_length), ("empty messages", empty_frames), ("messages of other asks without end", others),
                       ("noise without end", noise), ("a silent stream", silence)]:
        bad = Streams(act)
        one_upstream(rows, title, bad, good, "\n\t\tforce_tcp")
        bad.end()
    good.end()


def datagrams(rows):
    good = Datagrams(answers)
    for title, act in [("a flood of answers to other asks", flood_of_others), ("datagrams without bytes", no_bytes), ("large datagrams of other asks", large)]:
        bad = Datagrams(act)
        one_upstream(rows, title, bad, good, "")
        bad.end()
    good.end()
    for title, act in [("a flood of strangers in front of the answer", flood_of_strangers), ("a flood behind the answer", flood_behind)]:
        upstream = Datagrams(act)
        with Served(TEXT % (f"127.0.0.1:{upstream.port}", ""), "--workers", "1") as server:
            server.is_serving(LOCAL)
            replies, longest = asked(server, 10)
            rows.row(f"{title}: each query has the upstream's answer", all(reply and ADDRESS in reply for reply in replies), (replies, longest))
            rows.row(f"{title}: and soon", longest < A_TRY, longest)
        upstream.end()


def main():
    needs_program()
    rows = Rows()
    streams(rows)
    datagrams(rows)
    rows.end()


if __name__ == "__main__":
    main()
