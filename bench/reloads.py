#!/usr/bin/env python3
"""The time that a query takes while a server of two workers takes up new Corefiles, beside the same load without them.

A client in C asks 5,000 queries a second, each on time whether the one before was answered or not, and keeps how long each took. The
Corefile is replaced about every two seconds, with another zone file of 1,000 names each time, and looks come as fast as they may. Both runs
follow each other a few times. Nothing here is a test.
"""
import os
import subprocess
import sys
import tempfile
import threading
import time

TOP = os.path.dirname(os.path.dirname(os.path.abspath(__file__)))
sys.path.insert(0, os.path.join(TOP, "tests", "lib"))
from load import built  # noqa: E402
from program import PROGRAM, Served  # noqa: E402

PACE, SECONDS, CHANGES, ROUNDS = 5_000, 44, 20, 2
QUERY = bytes.fromhex("123400000001000000000000026831076578616d706c65036f72670000010001")
CLIENT = r"""
#define _GNU_SOURCE
#include <arpa/inet.h>
#include <poll.h>
#include <stdio.h>
#include <stdlib.h>
#include <string.h>
#include <sys/socket.h>
#include <time.h>
#include <unistd.h>
static unsigned char query[] = {QUERY};
static double sent_at[65536], took[4000000];
static double now(void) { struct timespec t; clock_gettime(CLOCK_MONOTONIC, &t); return t.tv_sec + t.tv_nsec / 1e9; }
static int by_size(const void *a, const void *b) { double x = *(double *)a, y = *(double *)b; return x < y ? -1 : x > y; }
int main(int n, char **a) {
    int port = atoi(a[1]); double pace = atof(a[2]); long asked = atol(a[3]), sent = 0, got = 0;
    int to = socket(AF_INET, SOCK_DGRAM, 0), room = 1 << 20;
    struct sockaddr_in at = {.sin_family = AF_INET, .sin_port = htons(port), .sin_addr.s_addr = htonl(INADDR_LOOPBACK)};
    setsockopt(to, SOL_SOCKET, SO_RCVBUF, &room, sizeof room);
    if (connect(to, (struct sockaddr *)&at, sizeof at)) return 1;
    double start = now(), last = 0;
    while (got < asked) {
        double t = now();
        if (sent == asked && t > last + 2) break;
        while (sent < asked && t >= start + sent / pace) {
            query[0] = sent >> 8; query[1] = sent;
            sent_at[sent & 65535] = now();
            send(to, query, sizeof query, 0);
            sent++; last = t;
        }
        struct pollfd p = {.fd = to, .events = POLLIN};
        struct timespec rest = {.tv_nsec = 50000};
        if (ppoll(&p, 1, &rest, 0) > 0) {
            unsigned char reply[512];
            while (recv(to, reply, sizeof reply, MSG_DONTWAIT) > 0) took[got++] = now() - sent_at[reply[0] << 8 | reply[1]];
        }
    }
    qsort(took, got, sizeof *took, by_size);
    printf("%ld %ld %.6f %.6f %.6f\n", sent, got, took[got / 2], took[got - got / 1000 - 1], took[got - 1]);
    return 0;
}
"""


def put(path, text):
    with open(path + ".new", "w") as file:
        file.write(text)
    os.replace(path + ".new", path)


def zone(version):
    hosts = "".join(f"h{host} A 10.{version}.{host // 256}.{host % 256}\n" for host in range(1000))
    return f"$TTL 60\n@ SOA ns admin {version} 7200 3600 1209600 60\n@ NS ns\nns A 192.0.2.1\n{hosts}"


def measured(asks, room, changes):
    """Lost queries, and the median, the thousandth slowest and the slowest, in milliseconds; how many configurations were taken up."""
    for version in range(changes + 1):
        put(os.path.join(room, f"db{version}"), zone(version))
    text = ".:{port} {\n\treload 2s 1s\n\tfile " + room + "/dbVERSION example.org\n}\n"
    with Served(text.replace("VERSION", "0"), "--workers", "2") as server:
        if not server.is_serving(QUERY):
            sys.exit("it doesn't serve")
        over = threading.Event()

        def change():
            for version in range(1, changes + 1):
                if over.wait(SECONDS / (changes + 1)):
                    return
                put(server.path, text.replace("VERSION", str(version)).replace("{port}", str(server.port)))

        changer = threading.Thread(target=change)
        changer.start()
        said = subprocess.run([asks, str(server.port), str(PACE), str(PACE * SECONDS)], capture_output=True, check=True)
        over.set()
        changer.join()
        noted = [line for line in server.noted() if line.startswith("reload published")]
        sent, got, *times = said.stdout.split()
        return int(sent) - int(got), [float(each) * 1e3 for each in times], len(noted)


def main():
    if not os.access(PROGRAM, os.X_OK):
        sys.exit("there is no built program (make build)")
    with tempfile.TemporaryDirectory() as room:
        asks = built(room, "asks", CLIENT.replace("QUERY", ",".join(str(byte) for byte in QUERY)))
        for _ in range(ROUNDS):
            for changes in (0, CHANGES):
                lost, (half, late, last), taken = measured(asks, room, changes)
                print(f"{taken} changes taken up: {lost} lost, median {half:.3f} ms, thousandth {late:.3f} ms, slowest {last:.3f} ms", flush=True)


if __name__ == "__main__":
    main()
