"""A system that refuses: descriptors that run out at each call, threads that are refused as they start, full disks and closed pipes, a clock that is
set back, files that change while they are read, and 10,000 connections that come and go. The server refuses with its status and line, or serves on."""
import os
import shutil
import socket
import struct
import subprocess
import sys
import tempfile
import threading
import time

sys.path.insert(0, os.path.join(os.path.dirname(os.path.abspath(__file__)), "lib"))
from message import query_bytes, reply_lines  # noqa: E402
from program import PROGRAM, SECONDS, Client, Rows, Served, corefile, free_port, needs_program  # noqa: E402

QUERY = query_bytes(["example.org", "A"])
RELOAD = ".:{port} {\n\treload 2s 1s\n\twhoami\n}\n"
# Longer than a look waits at most.
A_LOOK = 3.4
CONNECTIONS = 10_000
WHYS = ("too many open files", "out of memory")
CLOCK = """
#define _GNU_SOURCE
#include <sys/syscall.h>
#include <sys/time.h>
#include <time.h>
#include <unistd.h>
// Each reading of the wall clock is an hour before the last one. The monotonic clock goes on.
static long readings;
static long back(void) { return 3600 * __sync_add_and_fetch(&readings, 1); }
int clock_gettime(clockid_t id, struct timespec *out) {
    int status = (int)syscall(SYS_clock_gettime, id, out);
    if (status == 0 && id == CLOCK_REALTIME) out->tv_sec -= back();
    return status;
}
int gettimeofday(struct timeval *out, void *zone) {
    struct timespec now;
    int status = clock_gettime(CLOCK_REALTIME, &now);
    out->tv_sec = now.tv_sec;
    out->tv_usec = now.tv_nsec / 1000;
    return status;
}
time_t time(time_t *out) {
    struct timespec now;
    clock_gettime(CLOCK_REALTIME, &now);
    if (out) *out = now.tv_sec;
    return now.tv_sec;
}
"""

THREADS = """
#define _GNU_SOURCE
#include <dlfcn.h>
#include <errno.h>
#include <pthread.h>
#include <stdlib.h>
// The threads of these numbers, in the order in which they are asked for, are refused.
static int asked;
int pthread_create(pthread_t *thread, const pthread_attr_t *how, void *(*run)(void *), void *with) {
    int (*real)(pthread_t *, const pthread_attr_t *, void *(*)(void *), void *) = dlsym(RTLD_NEXT, "pthread_create");
    int number = __atomic_add_fetch(&asked, 1, __ATOMIC_SEQ_CST);
    if (atoi(getenv("REFUSE_FROM")) <= number && number <= atoi(getenv("REFUSE_TO"))) return EAGAIN;
    return real(thread, how, run, with);
}
"""


def put(path, text):
    with open(path + ".new", "w") as file:
        file.write(text)
    os.replace(path + ".new", path)


def answers(server, count, query=QUERY):
    with Client(server.port) as client:
        return sum(client.ask(query) is not None for _ in range(count))


def over_tcp(port):
    """Whether a query over TCP gets a reply."""
    try:
        with socket.create_connection(("127.0.0.1", port), 1) as client:
            client.settimeout(1)
            client.sendall(struct.pack(">H", len(QUERY)) + QUERY)
            return len(client.recv(512)) > 12
    except OSError:
        return False


def with_descriptors(count, text, *words):
    """A run that may open so many: its status and what it wrote, or the server where it serves."""
    server = Served(text, *words, under=["prlimit", f"--nofile={count}:{count}", "--"])
    server.__enter__()
    if server.is_serving(QUERY, 5):
        return server, None
    ended = server.process.poll()
    # One that neither serves nor ends hangs.
    said = server.process.communicate() if ended is not None else (b"", b"hangs")
    server.__exit__()
    return None, (ended, said[0].decode(), said[1].decode())



def descriptors(rows):
    if shutil.which("prlimit") is None:
        print("skipped: there is no prlimit")
        return
    refused, others, least = 0, [], None
    for count in range(4, 40):
        server, ended = with_descriptors(count, RELOAD, "--workers", "1")
        if server is not None:
            least = count
            break
        if ended[0] == 127 or "shared libraries" in ended[2]:
            # The loader of programs met it.
            continue
        is_one = ended[0] == 3 and (ended[1] == "cannot open\n" or ended[1].startswith("cannot read ")) and any(why in ended[2] for why in WHYS)
        refused += is_one
        others += [] if is_one else [(count, ended)]
    rows.row("with too few descriptors each start ends with status 3 and says why", refused > 0 and not others, (refused, others))
    rows.row("with some more it serves", least is not None)
    if least is None:
        return
    with_a_look(rows, server, least)
    with_asks(rows, least)


def with_a_look(rows, server, least):
    """The fewest descriptors with which it serves: looks may fail, and no query does."""
    try:
        put(server.path, RELOAD.replace("{port}", str(server.port)).replace("2s 1s", "2s 0s"))
        time.sleep(A_LOOK)
        rows.equal(f"with the fewest, {least}, queries are answered while looks are made", answers(server, 20), 20)
        noted = server.noted()
        allowed = {"reload published 1", f"reload cannot read {server.path}", *(f"read {server.path}: {why}" for why in WHYS)}
        rows.row("and a look publishes, or says that it couldn't read", noted and set(noted) <= allowed, noted)
    finally:
        server.__exit__()


def with_asks(rows, least):
    """Asks take descriptors too: each query that is passed on has a reply, whether its ask could be made or not."""
    with socket.socket(socket.AF_INET, socket.SOCK_DGRAM) as upstream:
        upstream.bind(("127.0.0.1", 0))
        answering = threading.Thread(target=answer_all, args=(upstream,), daemon=True)
        answering.start()
        text = f".:{{port}} {{\n\tforward . 127.0.0.1:{upstream.getsockname()[1]}\n}}\n"
        for count in (least, least + 1, least + 4):
            server, ended = with_descriptors(count, text, "--workers", "1")
            if server is None:
                rows.row(f"with {count} descriptors and an upstream it says why it can't serve", ended[0] == 3 and any(w in ended[2] for w in WHYS), ended)
                continue
            try:
                with Client(server.port) as client:
                    heads = [client.ask(query_bytes(["www.example.org", "A"], number), 5) for number in range(20)]
                known = {b"\x81\x80", b"\x81\x82"}
                rows.row(f"with {count} descriptors each query that is passed on has an answer or SERVFAIL",
                         all(head is not None and head[2:4] in known for head in heads), heads)
            finally:
                server.__exit__()


def answer_all(upstream):
    while True:
        try:
            ask, client = upstream.recvfrom(65535)
        except OSError:
            return
        end = ask.index(b"\0", 12) + 5
        upstream.sendto(ask[:2] + b"\x81\x80" + struct.pack(">4H", 1, 0, 0, 0) + ask[12:end], client)


def full_disk(rows):
    """Notes that no disk has room for are lost, and nothing else is."""
    if not os.path.exists("/dev/full"):
        print("skipped: there is no /dev/full")
        return
    text = ".:{port} {\n\treload 2s 0s\n\terrors\n\tlog\n\ttemplate IN A a.test {\n\t\tmatch never\n\t}\n\twhoami\n}\n"
    with tempfile.TemporaryDirectory() as room, open("/dev/full", "wb") as full:
        port = free_port()
        path = corefile(room, text.replace("{port}", str(port)))
        process = subprocess.Popen([PROGRAM, "serve", "--conf", path], stdout=full, stderr=full)
        try:
            with Client(port) as client:
                end = time.monotonic() + SECONDS
                while client.ask(QUERY, 0.2) is None and time.monotonic() < end:
                    pass
                whole = [client.ask(QUERY)[2:4] for _ in range(20)]
                failed = [client.ask(query_bytes(["x.a.test", "A"]))[2:4] for _ in range(20)]
            rows.equal("queries whose notes go to a full disk have their replies", (set(whole), set(failed)), ({b"\x85\x00"}, {b"\x81\x02"}))
            put(path, "broken {\n")
            time.sleep(A_LOOK)
            with Client(port) as client:
                rows.row("and a look that can't say what it refused refuses it", client.ask(QUERY) is not None and process.poll() is None)
        finally:
            process.kill()
            process.wait(SECONDS)


def closed_pipes(rows):
    """A pipe that nobody reads any more ends no run by a signal."""
    with tempfile.TemporaryDirectory() as room:
        for text, words, want in [("a refused Corefile", ["serve", "--conf", corefile(room, "x {\n")], 3), ("no words", [], 2)]:
            reader, writer = os.pipe()
            os.close(reader)
            try:
                ran = subprocess.run([PROGRAM, *words], stdout=writer, stderr=subprocess.DEVNULL, timeout=SECONDS)
            finally:
                os.close(writer)
            rows.equal(f"{text} where nobody reads standard output: status {want}", ran.returncode, want)
    reader, writer = os.pipe()
    with tempfile.TemporaryDirectory() as room:
        port = free_port()
        path = corefile(room, f".:{port} {{\n\tlog\n\twhoami\n}}\n")
        process = subprocess.Popen([PROGRAM, "serve", "--conf", path], stdout=writer, stderr=writer)
        os.close(writer)
        os.close(reader)
        try:
            with Client(port) as client:
                end = time.monotonic() + SECONDS
                while client.ask(QUERY, 0.2) is None and time.monotonic() < end:
                    pass
                rows.equal("queries whose notes nobody reads have their replies", sum(client.ask(QUERY) is not None for _ in range(50)), 50)
        finally:
            process.kill()
            process.wait(SECONDS)


def in_front(room, name, source):
    """What stands in front of the C library: the environment that brings a library of this source, or None where none can be made, and it is told."""
    if shutil.which("gcc") is None:
        print(f"skipped: there is no gcc for {name}")
        return None
    put(os.path.join(room, "front.c"), source)
    library = os.path.join(room, "front.so")
    made = subprocess.run(["gcc", "-shared", "-fPIC", "-O1", "-o", library, os.path.join(room, "front.c")], capture_output=True, timeout=60)
    if made.returncode != 0:
        print(f"skipped: gcc makes no library here for {name}")
        return None
    return {**os.environ, "LD_PRELOAD": library}


def late_threads(rows):
    """Threads that the system refuses behind the server's own test that they can be had: the first three are that test's, then come UDP's and TCP's."""
    ends = (4, "out of memory\n", "threads: resource temporarily unavailable: 2 asked for\n")
    with tempfile.TemporaryDirectory() as room:
        os.chmod(room, 0o755)
        env = in_front(room, "threads that are refused", THREADS)
        if env is None:
            return
        path = corefile(room, RELOAD.replace("{port}", str(free_port())))
        for title, numbers in [("UDP's thread is refused", (4, 4)), ("TCP's is", (5, 5)), ("all are refused", (4, 99))]:
            refused = dict(zip(("REFUSE_FROM", "REFUSE_TO"), map(str, numbers)))
            ran = subprocess.run([PROGRAM, "serve", "--conf", path, "--workers", "1"], env={**env, **refused}, capture_output=True, text=True, timeout=SECONDS)
            rows.equal(f"where {title} behind the test, the run says so and ends", (ran.returncode, ran.stdout, ran.stderr), ends)


def clock_back(rows):
    """The wall clock goes back an hour at each reading: looks, asks and connections keep their times."""
    with tempfile.TemporaryDirectory() as room:
        os.chmod(room, 0o755)
        env = in_front(room, "a clock that goes back", CLOCK)
        if env is None:
            return
        told = subprocess.run([sys.executable, "-c", "import time; print(time.time() > time.time() + 3000)"], env=env, capture_output=True, text=True, timeout=SECONDS)
        rows.equal("the clock that goes back does so", told.stdout, "True\n")
        silent = free_port()
        with socket.socket(socket.AF_INET, socket.SOCK_DGRAM) as quiet:
            quiet.bind(("127.0.0.1", silent))
            text = RELOAD.replace("whoami", f"forward silent.test 127.0.0.1:{silent}\n\twhoami")
            with Served(text, "--workers", "1", env=env) as server:
                rows.row("it serves while the clock goes back", server.is_serving(QUERY))
                with socket.create_connection(("127.0.0.1", server.port), 5) as idle, Client(server.port) as client:
                    began = time.monotonic()
                    head = (client.ask(query_bytes(["x.silent.test", "A"]), 5) or b"")[2:4]
                    took = time.monotonic() - began
                    rows.row("an ask that nobody answers ends in its two seconds", head == b"\x81\x02" and 1.5 < took < 3.5, (head, took))
                    put(server.path, text.replace("{port}", str(server.port)).replace("2s 1s", "2s 0s"))
                    time.sleep(A_LOOK)
                    idle.settimeout(2)
                    idle.sendall(struct.pack(">H", len(QUERY)) + QUERY)
                    rows.row("a connection that was idle for five seconds is served", len(idle.recv(512)) > 12)
                rows.equal("and a look finds a change in its time", server.noted(), ["reload published 1"])
    in_other_times(rows)


def in_other_times(rows):
    """A machine that was started just now, and one that runs for ten years."""
    if shutil.which("unshare") is None:
        print("skipped: there is no unshare for another time since the start")
        return
    with open("/proc/uptime") as file:
        since = int(float(file.read().split()[0]))
    for text, seconds in [("two seconds ago", 2 - since), ("ten years ago", 315_360_000)]:
        under = ["unshare", "--time", "--fork", "--kill-child", f"--monotonic={seconds}", f"--boottime={seconds}", "--"]
        if subprocess.run([*under, "true"], capture_output=True, timeout=SECONDS).returncode != 0:
            print("skipped: no other time since the start can be had here")
            return
        with Served(RELOAD, under=under) as server:
            rows.row(f"on a machine that was started {text} it serves", server.is_serving(QUERY))
            put(server.path, RELOAD.replace("{port}", str(server.port)).replace("2s 1s", "2s 0s"))
            time.sleep(A_LOOK)
            rows.equal("and looks in its time", first_line(server), b"reload published 1\n")
            rows.equal("and answers", answers(server, 5), 5)


def first_line(server):
    os.set_blocking(server.process.stderr.fileno(), False)
    return server.process.stderr.readline()


def version_of(reply):
    """The number in the TXT record of a reply, or None."""
    lines = [line for line in reply_lines(reply) if line.startswith("answer")] if reply is not None else []
    return int(lines[0].split('"')[1]) if lines else None


def template(origin, version):
    return f'template IN TXT {origin} {{\n\tanswer "{{{{ .Name }}}} 60 IN TXT {version}"\n}}\n'


def changing_files(rows):
    """Two files that one Corefile names change all the time, one behind the other, and a third is written over in place: what serves is what one look
    read, and once they stand still it is what stands there."""
    with tempfile.TemporaryDirectory() as room:
        first, second, torn = (os.path.join(room, name) for name in ("first", "second", "torn"))
        over, versions = threading.Event(), [0]

        def change():
            while not over.is_set():
                versions[0] += 1
                put(first, template("a.test", versions[0]))
                put(second, template("b.test", versions[0]))

        def tear():
            hosts = "".join(f"10.0.{n // 250}.{n % 250} h{n}.torn.test\n" for n in range(8_000))
            while not over.is_set():
                with open(torn, "w") as file:
                    for at in range(0, len(hosts), 20_000):
                        file.write(hosts[at:at + 20_000])
                        file.flush()

        for path, origin in ((first, "a.test"), (second, "b.test")):
            put(path, template(origin, 0))
        put(torn, "10.0.0.1 h0.torn.test\n")
        text = f".:{{port}} {{\n\treload 2s 0s\n\timport {first}\n\thosts {torn} torn.test\n\timport {second}\n}}\n"
        with Served(text, "--workers", "2") as server:
            asks = [query_bytes([f"x.{origin}", "TXT"]) for origin in ("a.test", "b.test")]
            rows.row("it serves what two files say", server.is_serving(asks[0]))
            writers = [threading.Thread(target=it, daemon=True) for it in (change, tear)]
            for writer in writers:
                writer.start()
            seen, end = [[], []], time.monotonic() + 9
            with Client(server.port) as client:
                while time.monotonic() < end:
                    for number, ask in enumerate(asks):
                        seen[number].append(version_of(client.ask(ask)))
            over.set()
            for writer in writers:
                writer.join(SECONDS)
            put(torn, "10.0.0.77 last.torn.test\n")
            time.sleep(A_LOOK + 1)
            with Client(server.port) as client:
                rows.equal("once the files stand still what stands there serves", [version_of(client.ask(ask)) for ask in asks], [versions[0]] * 2)
                last = client.ask(query_bytes(["last.torn.test", "A"]))
                rows.row("and so does the one that was written in place", last is not None and "10.0.0.77" in str(reply_lines(last)), last)
            noted = server.noted()
        rows.row("each query has an answer while they change", all(None not in found for found in seen), [found.count(None) for found in seen])
        rows.row("and none is of an older version than one before it", all(found == sorted(found) for found in seen))
        kinds = [len(set(found)) for found in seen]
        published = sum(line.startswith("reload published ") for line in noted)
        rows.row("versions change with what is published alone", 1 < max(kinds) <= published + 1, (kinds, noted))


def held(server):
    """How many descriptors it has."""
    return len(os.listdir(f"/proc/{server.process.pid}/fd"))


def memory(server):
    with open(f"/proc/{server.process.pid}/statm") as file:
        return int(file.read().split()[1]) * os.sysconf("SC_PAGE_SIZE") >> 10


def come_and_go(port, number):
    """One connection: one that is closed, one that is reset, a torn message, or a query with its reply."""
    with socket.create_connection(("127.0.0.1", port), 5) as client:
        if number % 4 == 1:
            client.sendall(b"\x00\x1d" + QUERY[:number % 29])
        elif number % 4 == 2:
            client.sendall(struct.pack(">H", len(QUERY)) + QUERY)
            client.settimeout(5)
            client.recv(512)
        if number % 4:
            client.setsockopt(socket.SOL_SOCKET, socket.SO_LINGER, struct.pack("ii", 1, 0))


def connections(rows):
    with Served(RELOAD, "--workers", "2") as server:
        rows.row("it serves", server.is_serving(QUERY) and over_tcp(server.port))
        before, failed = [], 0
        for number in range(CONNECTIONS):
            if number == CONNECTIONS // 5:
                time.sleep(1.5)
                before = [held(server), memory(server)]
            try:
                come_and_go(server.port, number)
            except OSError:
                failed += 1
        time.sleep(2)
        rows.row(f"{CONNECTIONS} connections come and go, and all but a few are taken", failed * 100 <= CONNECTIONS, failed)
        rows.row("they leave no descriptor behind", held(server) <= before[0] + 2, (before[0], held(server)))
        rows.row("and no memory but 4 MiB", memory(server) <= before[1] + 4096, (before[1], memory(server)))
        rows.row("and the next queries are answered", over_tcp(server.port) and answers(server, 5) == 5)


def main():
    needs_program()
    rows = Rows()
    descriptors(rows)
    full_disk(rows)
    closed_pipes(rows)
    late_threads(rows)
    clock_back(rows)
    changing_files(rows)
    connections(rows)
    rows.end()


if __name__ == "__main__":
    main()
