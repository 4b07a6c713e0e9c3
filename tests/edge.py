"""The program's edge: odd starts, files that are no files, ports that can't be opened, streams that take nothing, failing receives."""
import fcntl
import os
import re
import shutil
import socket
import subprocess
import sys
import tempfile
import time

sys.path.insert(0, os.path.join(os.path.dirname(os.path.abspath(__file__)), "lib"))
from program import PROGRAM, SECONDS, Client, Rows, Served, corefile, free_port, needs_program  # noqa: E402

QUERY = bytes.fromhex("123401000001000000000000" "076578616d706c65036f726700" "00010001")
WHOAMI = ".:{port} {\n\twhoami\n}\n"
RELOAD = ".:{port} {\n\treload 2s 1s\n\twhoami\n}\n"

# Longer than a look waits at most.
A_LOOK = 3.3
NOBODY = 65534


def told(status, out, err=""):
    return status, out + "\n" if out else "", err + "\n" if err else ""


def run(*words, **how):
    """The status and what was written, of a run that is to end by itself."""
    ran = subprocess.run([PROGRAM, *words], capture_output=True, text=True, timeout=SECONDS, **how)
    return ran.returncode, ran.stdout, ran.stderr


def put(server, text):
    """Replaces the Corefile in one step, as editors and `mv` do."""
    with open(server.path + ".new", "w") as file:
        file.write(text.replace("{port}", str(server.port)))
    os.replace(server.path + ".new", server.path)


def no_regular_files(rows):
    with tempfile.TemporaryDirectory() as room:
        pipe = os.path.join(room, "pipe")
        os.mkfifo(pipe)
        for title, name in [("a pipe", pipe), ("a device", "/dev/zero"), ("a terminal's device", "/dev/tty"), ("a folder", room)]:
            began = time.monotonic()
            got = run("serve", "--conf", name)
            want = told(3, f"cannot read {name}", f"read {name}: not a regular file")
            rows.equal(f"{title} is no Corefile", got, want)
            rows.row(f"{title} is refused at once", time.monotonic() - began < 10)
        path = corefile(room, f". {{\n\timport {pipe}\n}}\n")
        rows.equal("nor is a pipe a file to import", run("serve", "--conf", path),
                   told(3, f"cannot read {pipe}", f"read {pipe}: not a regular file"))
        link = os.path.join(room, "link")
        os.symlink(corefile(room, ""), link)
        rows.equal("a link to a file is one", run("serve", "--conf", link), told(0, ""))


def a_pipe_while_it_serves(rows):
    with Served(RELOAD) as server:
        rows.row("a server with reload serves", server.is_serving(QUERY))
        os.remove(server.path)
        os.mkfifo(server.path)
        time.sleep(A_LOOK)
        with Client(server.port) as client:
            rows.row("it answers while its Corefile is a pipe", all(client.ask(QUERY) is not None for _ in range(5)))
        said = server.noted()
        rows.row("and says so at each look", len(said) % 2 == 0 and said == len(said) // 2 * [
            f"read {server.path}: not a regular file", f"reload cannot read {server.path}"] != [], said)


def held_everywhere():
    """A socket that has a port over UDP at every address, of IPv4 alone where there is no IPv6."""
    try:
        holder = socket.socket(socket.AF_INET6, socket.SOCK_DGRAM)
        holder.setsockopt(socket.IPPROTO_IPV6, socket.IPV6_V6ONLY, 0)
        holder.bind(("::", 0))
    except OSError:
        holder = socket.socket(socket.AF_INET, socket.SOCK_DGRAM)
        holder.bind(("0.0.0.0", 0))
    return holder


def ports(rows):
    with tempfile.TemporaryDirectory() as room, held_everywhere() as holder:
        port = holder.getsockname()[1]
        path = corefile(room, WHOAMI.replace("{port}", str(port)))
        rows.equal("a port that is taken", run("serve", "--conf", path),
                   told(3, "cannot open", f"open udp port {port}: address in use"))
        if os.geteuid() != 0:
            print("skipped: rights, since this is not root")
            return
        os.chmod(room, 0o755)
        program = shutil.copy(PROGRAM, os.path.join(room, "program"))
        low = next(port for port in range(1, 1024) if port not in (53, 853))
        with open("/proc/sys/net/ipv4/ip_unprivileged_port_start") as file:
            if int(file.read()) <= low:
                print("skipped: every port may be opened here")
                return
        path = corefile(room, WHOAMI.replace("{port}", str(low)))
        as_nobody(rows, "a port without the right to it", program, path,
                  told(3, "cannot open", f"open udp port {low}: permission denied"))
        os.chmod(path, 0)
        as_nobody(rows, "a Corefile without the right to it", program, path,
                  told(3, f"cannot read {path}", f"read {path}: permission denied"))


def as_nobody(rows, title, program, path, want):
    ran = subprocess.run([program, "serve", "--conf", path], capture_output=True, text=True, timeout=SECONDS,
                         user=NOBODY, group=NOBODY, extra_groups=[])
    rows.equal(title, (ran.returncode, ran.stdout, ran.stderr), want)


class Bare:
    """A server with streams of its own making."""

    def __init__(self, text, **how):
        self.room = tempfile.TemporaryDirectory()
        self.port = free_port()
        self.path = corefile(self.room.name, text.replace("{port}", str(self.port)))
        self.process = subprocess.Popen([PROGRAM, "serve", "--conf", self.path], **how)

    def __enter__(self):
        return self

    def __exit__(self, *_):
        if self.process.poll() is None:
            self.process.kill()
        self.process.wait(SECONDS)
        self.room.cleanup()

    is_serving = Served.is_serving

    def answers(self, count):
        with Client(self.port) as client:
            return sum(client.ask(QUERY) is not None for _ in range(count))


def close_streams():
    for number in range(3):
        os.close(number)


def closed_streams(rows):
    with Bare(WHOAMI, preexec_fn=close_streams) as server:
        rows.row("it serves with descriptors 0 to 2 closed", server.is_serving(QUERY))
        folder = f"/proc/{server.process.pid}/fd"
        if os.path.isdir(folder):
            rows.equal("they are open on /dev/null", [os.readlink(f"{folder}/{number}") for number in range(3)], ["/dev/null"] * 3)
    with Bare(WHOAMI, preexec_fn=lambda: os.close(0)) as server:
        rows.row("it serves with descriptor 0 closed", server.is_serving(QUERY))
        folder = f"/proc/{server.process.pid}/fd"
        if os.path.isdir(folder):
            rows.equal("it is open on /dev/null", os.readlink(f"{folder}/0"), "/dev/null")


def broken(count):
    """A Corefile that is refused, in another line each time, so that each look has another note."""
    return RELOAD + "\n" * count + "x {\n"


def full_pipe(rows):
    reader, writer = os.pipe()
    fcntl.fcntl(writer, fcntl.F_SETPIPE_SZ, 4096)
    os.set_blocking(writer, False)
    try:
        while True:
            os.write(writer, b"." * 4096)
    except BlockingIOError:
        os.set_blocking(writer, True)
    with Bare(RELOAD, stdout=subprocess.DEVNULL, stderr=writer) as server:
        os.close(writer)
        rows.row("it serves with standard error a full pipe", server.is_serving(QUERY))
        for count in range(2):
            put(server, broken(count))
            time.sleep(A_LOOK)
            rows.equal("no query waits for a note", server.answers(5), 5)
        os.set_blocking(reader, False)
        rest = drained(reader)
        rows.row("the notes have failed", set(rest) <= {ord(".")}, rest[-80:])
        put(server, broken(7))
        time.sleep(A_LOOK)
        rest = drained(reader)
        rows.row("a later note goes out", rest.startswith(b"reload refused: ") and rest.endswith(b"\n"), rest)
    os.close(reader)


def drained(reader):
    found = b""
    try:
        while True:
            more = os.read(reader, 65536)
            if not more:
                return found
            found += more
    except BlockingIOError:
        return found


def nobody_reads(rows):
    reader, writer = os.pipe()
    with Bare(RELOAD, stdout=subprocess.DEVNULL, stderr=writer) as server:
        os.close(writer)
        rows.row("it serves with standard error a pipe", server.is_serving(QUERY))
        os.close(reader)
        put(server, broken(0))
        time.sleep(A_LOOK)
        rows.equal("it serves on when nobody reads that pipe", server.answers(5), 5)


def refused_threads(rows):
    """Where the system refuses threads, the run doesn't begin. Another user has four processes at most, and the server eight threads to make."""
    if os.geteuid() or shutil.which("setpriv") is None or shutil.which("prlimit") is None:
        print("skipped: threads of another user, without root, setpriv or prlimit")
        return
    user = 60_000 + os.getpid() % 4_000
    limited = ["prlimit", "--nproc=4:4", "--", "setpriv", f"--reuid={user}", "--clear-groups"]
    with tempfile.TemporaryDirectory() as room:
        os.chmod(room, 0o755)
        path = corefile(room, WHOAMI.replace("{port}", str(free_port())))
        ran = subprocess.run([*limited, PROGRAM, "serve", "--conf", path, "--workers", "4"], capture_output=True, text=True, timeout=SECONDS)
        # A thread that has ended counts until the system has let go of it, so the third may be refused.
        allowed = [told(3, "cannot open", f"threads: resource temporarily unavailable: {count} asked for") for count in (3, 4)]
        rows.row("threads that can't run end the run before it serves", (ran.returncode, ran.stdout, ran.stderr) in allowed, ran)
    with Served(WHOAMI, "--workers", "1", mode=0o755, under=limited) as server:
        rows.row("as many as are allowed serve", server.is_serving(QUERY))


def odd_files(rows):
    with tempfile.TemporaryDirectory() as room:
        circle = os.path.join(room, "circle")
        os.symlink(circle, circle)
        below = os.path.join(corefile(room, ""), "below")
        for title, name, why in [("a circle of links", circle, "links that lead round in a circle"), ("what stands below a file", below, "not a folder on the way to it")]:
            rows.equal(f"{title} is told", run("serve", "--conf", name), told(3, f"cannot read {name}", f"read {name}: {why}"))


def failing_receives(rows):
    if shutil.which("strace") is None:
        print("skipped: there is no strace")
        return
    with tempfile.TemporaryDirectory() as room:
        path = corefile(room, WHOAMI.replace("{port}", str(free_port())))
        asked = ["strace", "-f", "-o", os.path.join(room, "calls"), "-e", "trace=recvfrom",
                 "-e", "inject=recvfrom:error=ENOMEM", PROGRAM, "serve", "--conf", path]
        began = time.monotonic()
        ran = subprocess.run(asked, capture_output=True, text=True, timeout=60)
        took = time.monotonic() - began
        with open(os.path.join(room, "calls")) as file:
            failed = sum("recvfrom(" in line for line in file)
    if failed == 0:
        print("skipped: strace can't trace here")
        return
    rows.equal("64 failing receives end the run", (ran.returncode, ran.stdout, failed), (6, "a worker could not receive\n", 64))
    rows.row("over some seconds", 5 < took < 55, took)


def sockets_at(port):
    """How many sockets have a port over UDP."""
    count = 0
    for table in ("/proc/net/udp", "/proc/net/udp6"):
        if os.path.exists(table):
            with open(table) as file:
                count += sum(line.split()[1].endswith(f":{port:04X}") for line in list(file)[1:])
    return count


def woken(room):
    """How many threads of a run of four workers got an empty datagram behind its one query; None where strace can't trace."""
    path, calls = corefile(room, WHOAMI.replace("{port}", str(port := free_port()))), os.path.join(room, "calls")
    asked = ["strace", "-f", "-o", calls, "-e", "trace=recvfrom", PROGRAM, "serve", "--conf", path, "--workers", "4", "--queries", "1"]
    with subprocess.Popen(asked, stdout=subprocess.DEVNULL, stderr=subprocess.DEVNULL) as ran:
        try:
            # Before all of them are open the system gives the query to another worker than behind it.
            end = time.monotonic() + SECONDS
            while sockets_at(port) < 4 and time.monotonic() < end:
                time.sleep(0.05)
            with Client(port) as client:
                while ran.poll() is None and time.monotonic() < end:
                    client.ask(QUERY)
            ran.wait(SECONDS)
        finally:
            if ran.poll() is None:
                ran.kill()
    with open(calls) as file:
        lines = [line for line in file if "recvfrom" in line]
    return len({line.split()[0] for line in lines if re.search(r'"", .*= 0$', line)}) if lines else None


def ending_workers(rows):
    if shutil.which("strace") is None:
        print("skipped: there is no strace")
        return
    # A worker whose wait of a second ends by itself just then needs no datagram: another round shows all three.
    counts = []
    while 3 not in counts and len(counts) < 5:
        with tempfile.TemporaryDirectory() as room:
            counts.append(woken(room))
        if counts[-1] is None:
            print("skipped: strace can't trace here")
            return
    rows.row("where one of four workers ends the run, the other three are woken", 3 in counts, counts)


def asked_at(family, client, server, port):
    """Whether a query from one address to another gets a reply that comes from the one that was asked."""
    with socket.socket(family, socket.SOCK_DGRAM) as asker:
        asker.bind((client, 0))
        asker.connect((server, port))
        asker.settimeout(1)
        try:
            asker.send(QUERY)
            return len(asker.recv(512)) > 12
        except (TimeoutError, ConnectionRefusedError):
            return False


def beside_another(rows, family, kind, taken, workers):
    """A port that somebody has at one address is served at the others, and the edge says at which."""
    port, over = free_port(), "udp" if kind == socket.SOCK_DGRAM else "tcp"
    with socket.socket(family, kind) as other:
        other.bind((taken, port))
        if over == "tcp":
            other.listen(1)
        with Served(WHOAMI, "--workers", workers, port=port) as server:
            rows.row(f"a port of which somebody has {over} at {taken} is served", server.is_serving(QUERY))
            for address in ("127.0.0.1", "10.9.9.2"):
                rows.row(f"over UDP at {address}", asked_at(socket.AF_INET, address, address, port))
                with socket.create_connection((address, port), timeout=2) as client:
                    client.sendall(len(QUERY).to_bytes(2, "big") + QUERY)
                    rows.row(f"over TCP at {address}", len(client.recv(512)) > 14)
            noted = server.noted()
    places = [address for address in ("10.9.9.1", "10.9.9.2", "10.9.9.3", "fd00:9::1", "fd00:9::2", "127.0.0.1", "::1") if address != taken]
    found = re.fullmatch(rf"{over} port {port} open at ([0-9a-f.: ]+)", noted[0]) if noted else None
    rows.row(f"and the edge says at which addresses over {over}", found and sorted(found[1].split()) == sorted(places), noted)
    left = [] if taken == "127.0.0.53" else [f"{over} port {port} taken at {taken}"]
    rows.equal(f"and which of the host's it leaves out over {over}", noted[1:], left)


def apart(rows):
    """In a network of its own with several addresses, where IPv6 sockets keep IPv4 out unless they ask."""
    with open("/proc/sys/net/ipv6/bindv6only") as file:
        rows.equal("the system keeps IPv4 out of IPv6 sockets", file.read().strip(), "1")
    with Served(WHOAMI) as server:
        rows.row("IPv4 is served whatever bindv6only says", server.is_serving(QUERY))
        with Client(server.port, socket.AF_INET6) as client:
            rows.row("and IPv6 beside it", client.ask(QUERY) is not None)
        for family, client, address in [(socket.AF_INET, "10.9.9.1", "10.9.9.1"), (socket.AF_INET, "10.9.9.1", "10.9.9.2"),
                                        (socket.AF_INET6, "fd00:9::1", "fd00:9::2"), (socket.AF_INET, "127.0.0.1", "127.0.0.1")]:
            rows.row(f"{address} replies to {client} itself", asked_at(family, client, address, server.port))
        subprocess.run(["ip", "address", "add", "10.9.9.3/24", "dev", "lo"], check=True)
        time.sleep(10.5)
        rows.row("a new address replies itself behind ten seconds", asked_at(socket.AF_INET, "10.9.9.1", "10.9.9.3", server.port))
        rows.row("and so do the others still", asked_at(socket.AF_INET, "10.9.9.1", "10.9.9.2", server.port))
    with Served(WHOAMI) as server:
        rows.row("it serves once more", server.is_serving(QUERY))
        path = corefile(server.room.name, WHOAMI.replace("{port}", str(server.port)))
        rows.equal("a port that another server of this user has is taken", run("serve", "--conf", path),
                   told(3, "cannot open", f"open udp port {server.port}: address in use"))
    beside_another(rows, socket.AF_INET, socket.SOCK_DGRAM, "127.0.0.53", "1")
    beside_another(rows, socket.AF_INET, socket.SOCK_STREAM, "127.0.0.53", "4")
    beside_another(rows, socket.AF_INET6, socket.SOCK_DGRAM, "fd00:9::1", "2")


def in_own_network(rows):
    if shutil.which("unshare") is None or shutil.which("ip") is None:
        print("skipped: there is no unshare or no ip")
        return
    script = ("ip link set lo up && echo 1 >/proc/sys/net/ipv6/bindv6only && "
              "for address in 10.9.9.1/24 10.9.9.2/24; do ip address add $address dev lo || exit; done && "
              "for address in fd00:9::1/64 fd00:9::2/64; do ip -6 address add $address dev lo nodad || exit; done && "
              'exec "$@"')
    for alone in [["unshare", "--net"], ["unshare", "--map-root-user", "--net"]]:
        ran = subprocess.run([*alone, "sh", "-c", script, "sh", sys.executable, os.path.abspath(__file__), "apart"],
                             capture_output=True, text=True, timeout=60)
        if "ok " in ran.stdout:
            print(ran.stdout, end="", flush=True)
            rows.failed += ran.returncode != 0
            return
    print("skipped: no network of its own can be made here")


def main():
    needs_program()
    rows = Rows()
    if sys.argv[1:] == ["apart"]:
        apart(rows)
        rows.end()
    no_regular_files(rows)
    a_pipe_while_it_serves(rows)
    ports(rows)
    closed_streams(rows)
    full_pipe(rows)
    nobody_reads(rows)
    odd_files(rows)
    refused_threads(rows)
    failing_receives(rows)
    ending_workers(rows)
    in_own_network(rows)
    rows.end()


if __name__ == "__main__":
    main()
