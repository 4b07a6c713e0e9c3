"""What the benches share that put load on a running server: programs in C, and the CPU time of a process."""
import os
import shutil
import struct
import subprocess

# Threads that keep so many queries under way on each of so many sockets over UDP, sent and received by bursts, so that a server
# has the next query before it has answered the last one: PORT THREADS SOCKETS WINDOW QUERIES FILE. The file has the queries, each
# behind its length. Prints how many were sent and how many replies came. With RCODE ANSWER AUTHORITY ADDITIONAL behind, the id of a
# query is its place in the file, and it ends with 3 and writes the reply at one that isn't of the query of its id, or has another RCODE
# or other numbers of records.
ASKS = r"""
#define _GNU_SOURCE
#include <arpa/inet.h>
#include <poll.h>
#include <pthread.h>
#include <stdio.h>
#include <stdlib.h>
#include <string.h>
#include <sys/socket.h>
#include <unistd.h>
enum { MOST = 64, QUERIES = 4096 };
static struct iovec queries[QUERIES];
static int count, port, sockets, window, checked, wanted[4];
static long asked;
struct client { pthread_t thread; long sent, got, next; };
static void put(struct client *c, int fd, long more, struct mmsghdr *out) {
    while (more > 0) {
        int many = more < MOST ? more : MOST;
        for (int k = 0; k < many; k++) out[k].msg_hdr.msg_iov = &queries[(c->next + k) % count];
        int now = sendmmsg(fd, out, many, 0);
        if (now <= 0) break;
        c->sent += now; c->next += now; more -= now;
    }
}
static int right(const unsigned char *reply, unsigned size) {
    unsigned id = reply[0] << 8 | reply[1];
    if (size < 12 || id >= (unsigned)count || !(reply[2] & 0x80) || (reply[3] & 15) != wanted[0]) return 0;
    for (int k = 1; k < 4; k++) if ((reply[4 + 2 * k] << 8 | reply[5 + 2 * k]) != wanted[k]) return 0;
    const unsigned char *query = queries[id].iov_base;
    unsigned length = queries[id].iov_len;
    return size >= length && memcmp(reply + 4, query + 4, 2) == 0 && memcmp(reply + 12, query + 12, length - 12) == 0;
}
static void check(const unsigned char *reply, unsigned size) {
    if (right(reply, size)) return;
    for (unsigned k = 0; k < size; k++) fprintf(stderr, "%02x", reply[k]);
    exit(3);
}
static void *client(void *one) {
    struct client *c = one;
    struct pollfd p[64];
    unsigned char replies[MOST][512];
    struct iovec from[MOST];
    struct mmsghdr out[MOST], in[MOST];
    memset(out, 0, sizeof out); memset(in, 0, sizeof in);
    for (int k = 0; k < MOST; k++) {
        out[k].msg_hdr.msg_iovlen = 1;
        from[k].iov_base = replies[k]; from[k].iov_len = 512;
        in[k].msg_hdr.msg_iov = &from[k]; in[k].msg_hdr.msg_iovlen = 1;
    }
    struct sockaddr_in at = {.sin_family = AF_INET, .sin_port = htons(port), .sin_addr.s_addr = htonl(INADDR_LOOPBACK)};
    for (int i = 0; i < sockets; i++) {
        p[i].fd = socket(AF_INET, SOCK_DGRAM, 0); p[i].events = POLLIN;
        if (connect(p[i].fd, (struct sockaddr *)&at, sizeof at)) exit(1);
        put(c, p[i].fd, window, out);
    }
    while (c->got < asked) {
        int some = 0;
        for (int i = 0; i < sockets; i++) {
            int now = recvmmsg(p[i].fd, in, MOST, MSG_DONTWAIT, NULL);
            if (now <= 0) continue;
            some = 1; c->got += now;
            for (int k = 0; checked && k < now; k++) check(replies[k], in[k].msg_len);
            put(c, p[i].fd, now < asked - c->sent ? now : asked - c->sent, out);
        }
        if (!some && poll(p, sockets, checked ? 5000 : 1000) == 0) break;
    }
    return NULL;
}
int main(int n, char **a) {
    FILE *file = fopen(a[6], "rb");
    unsigned char size[2];
    while (file && count < QUERIES && fread(size, 1, 2, file) == 2) {
        queries[count].iov_len = 256 * size[0] + size[1];
        queries[count].iov_base = malloc(queries[count].iov_len);
        if (fread(queries[count].iov_base, 1, queries[count].iov_len, file) != queries[count].iov_len) return 1;
        count++;
    }
    if (count == 0) return 1;
    checked = n > 10;
    for (int k = 0; checked && k < 4; k++) wanted[k] = atoi(a[7 + k]);
    struct client c[16] = {0};
    int threads = atoi(a[2]);
    port = atoi(a[1]); sockets = atoi(a[3]); window = atoi(a[4]); asked = atol(a[5]) / threads;
    for (int t = 0; t < threads; t++) c[t].next = t * 997;
    for (int t = 0; t < threads; t++) pthread_create(&c[t].thread, NULL, client, &c[t]);
    long sent = 0, got = 0;
    for (int t = 0; t < threads; t++) { pthread_join(c[t].thread, NULL); sent += c[t].sent; got += c[t].got; }
    printf("%ld %ld\n", sent, got);
    return 0;
}
"""


def built(folder, name, source):
    """The program of a source in C."""
    path = os.path.join(folder, name)
    with open(path + ".c", "w") as file:
        file.write(source)
    subprocess.run([shutil.which("cc") or "clang", "-O2", "-pthread", "-o", path, path + ".c"], check=True)
    return path


def spent(pid):
    """User and system time of a process so far, in seconds."""
    with open(f"/proc/{pid}/stat") as file:
        fields = file.read().rsplit(")", 1)[1].split()
    return [int(ticks) / os.sysconf("SC_CLK_TCK") for ticks in fields[11:13]]


def resident(pid):
    """The resident memory of a process, in KiB."""
    with open(f"/proc/{pid}/status") as file:
        return next(int(line.split()[1]) for line in file if line.startswith("VmRSS"))


def queries_file(folder, queries):
    """A file of queries for `ASKS`."""
    path = os.path.join(folder, "queries")
    with open(path, "wb") as file:
        for query in queries:
            file.write(struct.pack(">H", len(query)) + query)
    return path


def family(pid):
    """A process and those below it."""
    parents = {}
    for entry in os.listdir("/proc"):
        if entry.isdigit():
            try:
                with open(f"/proc/{entry}/stat") as file:
                    parents[int(entry)] = int(file.read().rsplit(")", 1)[1].split()[1])
            except OSError:
                pass
    found, more = {pid}, {pid}
    while more:
        more = {child for child, parent in parents.items() if parent in more} - found
        found |= more
    return sorted(found)


def spent_by_all(pid):
    """User and system time of a process and of those below it, in seconds."""
    return [sum(each) for each in zip(*map(spent, family(pid)))]


def resident_by_all(pid):
    """The resident memory of a process and of those below it, in KiB, of a page that several share its part."""
    total = 0
    for member in family(pid):
        with open(f"/proc/{member}/smaps_rollup") as file:
            total += next(int(line.split()[1]) for line in file if line.startswith("Pss:"))
    return total
