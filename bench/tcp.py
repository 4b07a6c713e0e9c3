#!/usr/bin/env python3
"""CPU time a query over TCP of the built server, beside an echo over epoll that reads nothing, and what idle connections keep.

The echo is a program in C that sends back what it receives, on one thread, level-triggered, a read each time a connection is ready. By
bytes it writes all of it at once: what any server over TCP pays before it knows what a message is. By messages it finds each message and
writes it by a call of its own. All get the same load of one client in C in one run, over so many connections, with one query under way
on each, and with many. The ratio counts, since the time itself is the machine's. Nothing here is a test.
"""
import os
import socket
import subprocess
import sys
import tempfile
import time

TOP = os.path.dirname(os.path.dirname(os.path.abspath(__file__)))
sys.path.insert(0, os.path.join(TOP, "tests", "lib"))
from load import built, resident, spent  # noqa: E402
from program import PROGRAM, Served, free_port  # noqa: E402

CONNECTIONS = 32
# How many are under way on a connection, and how many are asked: CPU time is told in hundredths of a second.
WINDOWS = {1: 400_000, 50: 4_000_000}
IDLE = 1_000
ROUNDS = 3
QUERY = bytes.fromhex("123400000001000000000000076578616d706c65036f72670000010001")
FRAME = len(QUERY).to_bytes(2, "big") + QUERY
ECHO = r"""
#include <arpa/inet.h>
#include <netinet/tcp.h>
#include <stdlib.h>
#include <sys/epoll.h>
#include <sys/socket.h>
#include <unistd.h>
int main(int n, char **a) {
    int on = 1, listener = socket(AF_INET, SOCK_STREAM, 0), events = epoll_create1(0);
    struct sockaddr_in at = {.sin_family = AF_INET, .sin_port = htons(atoi(a[1])), .sin_addr.s_addr = htonl(INADDR_LOOPBACK)};
    struct epoll_event want = {.events = EPOLLIN, .data.fd = listener}, ready[64];
    static unsigned char room[65536];
    int by_messages = n > 2;
    setsockopt(listener, SOL_SOCKET, SO_REUSEADDR, &on, sizeof on);
    if (bind(listener, (struct sockaddr *)&at, sizeof at) || listen(listener, 1024)) return 1;
    epoll_ctl(events, EPOLL_CTL_ADD, listener, &want);
    for (;;) {
        int count = epoll_wait(events, ready, 64, -1);
        for (int i = 0; i < count; i++) {
            int from = ready[i].data.fd;
            if (from == listener) {
                want.data.fd = accept(listener, 0, 0);
                setsockopt(want.data.fd, IPPROTO_TCP, TCP_NODELAY, &on, sizeof on);
                epoll_ctl(events, EPOLL_CTL_ADD, want.data.fd, &want);
                continue;
            }
            ssize_t got = recv(from, room, sizeof room, by_messages ? MSG_PEEK : 0), at = 0;
            if (got <= 0) { close(from); continue; }
            if (!by_messages) { send(from, room, got, MSG_NOSIGNAL); continue; }
            while (at + 2 <= got && at + 2 + room[at] * 256 + room[at + 1] <= got) {
                ssize_t size = 2 + room[at] * 256 + room[at + 1];
                send(from, room + at, size, MSG_NOSIGNAL);
                at += size;
            }
            recv(from, room, at, 0);
        }
    }
}
"""
CLIENT = r"""
#include <arpa/inet.h>
#include <netinet/tcp.h>
#include <poll.h>
#include <stdio.h>
#include <stdlib.h>
#include <string.h>
#include <sys/socket.h>
#include <unistd.h>
static const unsigned char frame[] = {FRAME};
static unsigned char many[64 * sizeof frame], room[65536];
static void ask(int to, long count) {
    if (send(to, many, count * sizeof frame, MSG_NOSIGNAL) != (ssize_t)(count * sizeof frame)) exit(2);
}
int main(int n, char **a) {
    int port = atoi(a[1]), connections = atoi(a[2]), window = atoi(a[3]), on = 1;
    long asked = atol(a[4]), sent = 0, got = 0;
    struct pollfd p[256];
    /* of the frame that is coming: bytes of its length so far, its length, bytes of it that are missing */
    static int part[256], size[256], missing[256];
    struct sockaddr_in to = {.sin_family = AF_INET, .sin_port = htons(port), .sin_addr.s_addr = htonl(INADDR_LOOPBACK)};
    for (int k = 0; k < 64; k++) memcpy(many + k * sizeof frame, frame, sizeof frame);
    for (int i = 0; i < connections; i++) {
        p[i].fd = socket(AF_INET, SOCK_STREAM, 0);
        p[i].events = POLLIN;
        if (connect(p[i].fd, (struct sockaddr *)&to, sizeof to)) return 1;
        setsockopt(p[i].fd, IPPROTO_TCP, TCP_NODELAY, &on, sizeof on);
        ask(p[i].fd, window);
        sent += window;
    }
    while (got < asked) {
        if (poll(p, connections, 2000) == 0) break;
        for (int i = 0; i < connections; i++) {
            if (!(p[i].revents & POLLIN)) continue;
            ssize_t count = recv(p[i].fd, room, sizeof room, 0);
            if (count <= 0) return 3;
            long whole = 0;
            for (ssize_t at = 0; at < count;) {
                if (part[i] < 2) {
                    size[i] = size[i] * 256 + room[at++];
                    if (++part[i] == 2) missing[i] = size[i];
                    continue;
                }
                ssize_t step = count - at < missing[i] ? count - at : missing[i];
                at += step;
                missing[i] -= step;
                if (missing[i] == 0) { whole++; part[i] = 0; size[i] = 0; }
            }
            got += whole;
            long more = asked - sent < whole ? asked - sent : whole;
            if (more > 0) { ask(p[i].fd, more); sent += more; }
        }
    }
    printf("%ld %ld\n", sent, got);
    return 0;
}
"""


class Echo:
    """The echo on a port of its own."""

    def __init__(self, program, *words):
        self.port = free_port()
        self.process = subprocess.Popen([program, str(self.port), *words])

    def __enter__(self):
        end = time.monotonic() + 5
        while time.monotonic() < end:
            try:
                socket.create_connection(("127.0.0.1", self.port)).close()
                return self
            except OSError:
                time.sleep(0.01)
        sys.exit("the echo doesn't start")

    def __exit__(self, *_):
        self.process.kill()
        self.process.wait(5)


def measured(asks, server, window):
    """CPU time a query in microseconds."""
    before, asked = sum(spent(server.process.pid)), WINDOWS[window]
    said = subprocess.run([asks, str(server.port), str(CONNECTIONS), str(window), str(asked)], capture_output=True, check=True, timeout=120)
    sent, got = map(int, said.stdout.split())
    if got < sent or sent < asked:
        sys.exit(f"of {sent} queries {got} got replies")
    return (sum(spent(server.process.pid)) - before) / got * 1e6


def idle(server):
    """What so many connections that have asked once and then wait add to the resident memory, in KiB."""
    before = resident(server.process.pid)
    crowd = []
    for _ in range(IDLE):
        client = socket.create_connection(("127.0.0.1", server.port), timeout=5)
        client.sendall(FRAME)
        if len(client.recv(512)) < 2:
            sys.exit("a connection gets no reply")
        crowd.append(client)
    after = resident(server.process.pid)
    for client in crowd:
        client.close()
    return after - before


def main():
    if not os.access(PROGRAM, os.X_OK):
        sys.exit("there is no built program (make build)")
    with tempfile.TemporaryDirectory() as folder, Served(".:{port} {\n\twhoami\n}\n") as server:
        asks = built(folder, "asks", CLIENT.replace("FRAME", ",".join(str(byte) for byte in FRAME)))
        program = built(folder, "echo", ECHO)
        with Echo(program) as echo, Echo(program, "messages") as messages:
            if not server.is_serving(QUERY):
                sys.exit("it doesn't serve")
            for window in WINDOWS:
                for _ in range(ROUNDS):
                    bare, each, ours = (measured(asks, one, window) for one in (echo, messages, server))
                    print(f"{window} under way: {ours:.2f} us of CPU a query; the echo by bytes {bare:.2f}, {ours / bare:.2f} times; by messages {each:.2f}, {ours / each:.2f} times", flush=True)
        print(f"{IDLE} idle connections: {idle(server)} KiB")


if __name__ == "__main__":
    main()
