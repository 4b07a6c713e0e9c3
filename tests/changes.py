"""A zone that changes under load, in each way in which files are replaced: every reply is of one version, and no client
sees an older one than it saw before. Each asks again only behind its reply, and any of the workers may take its query:
of two workers' replies that order is seen here, and is proved nowhere. `changes.py 200` is a soak of as many. And the memory of a zone that was
replaced, which goes at the look behind its last query, though that look finds nothing."""
import os
import re
import subprocess
import sys
import tempfile
import threading
import time

sys.path.insert(0, os.path.join(os.path.dirname(os.path.abspath(__file__)), "lib"))
from message import query_bytes  # noqa: E402
from program import PROGRAM, Client, Rows, Served, needs_program  # noqa: E402
from upstream import Upstream  # noqa: E402

CHANGES = 8
CLIENTS = 6
# A look comes within three seconds of the one before.
LOOK = 3.0
NAME = bytes.fromhex("0176076578616d706c65036f726700")
QUERY = bytes.fromhex("123400000001000000000000") + NAME + bytes.fromhex("00100001")
VERSION = re.compile(rb"version-(\d{6})")
# A zone of some 1 MB, of two records each.
OWNERS = 36_000
# Over TCP a reply of another id ends a try, so a worker is held for so long by so many upstreams.
SLOW, UPSTREAMS = 1.2, 10


def zone(version):
    return f"""$ORIGIN example.org.
$TTL 60
@ IN SOA ns.example.org. admin.example.org. {version} 7200 3600 1209600 60
@ IN NS ns.example.org.
v IN TXT "version-{version:06}"
""".encode()


class Zone:
    """A zone file behind a link to a link, as a configuration that Kubernetes mounts, and the ways to replace it."""

    def __init__(self, folder):
        self.folder = folder
        self.path = os.path.join(folder, "zone")
        self.folders = 0
        self.swap(1)
        os.symlink(os.path.join("..data", "zone"), self.path)

    def swap(self, version):
        """The folder behind the link becomes another in one step."""
        self.folders += 1
        there = os.path.join(self.folder, f"folder{self.folders}")
        os.mkdir(there)
        with open(os.path.join(there, "zone"), "wb") as file:
            file.write(zone(version))
        link = os.path.join(self.folder, "..data_tmp")
        os.symlink(os.path.basename(there), link)
        os.replace(link, os.path.join(self.folder, "..data"))

    def rename(self, version):
        """Written aside, and renamed over the file."""
        there = os.path.join(self.folder, "..data", "zone")
        with open(there + ".new", "wb") as file:
            file.write(zone(version))
        os.replace(there + ".new", there)

    def write(self, version):
        """Cut to nothing, and written anew in two parts: what a look sees between is refused or the old one stays."""
        text = zone(version)
        with open(self.path, "wb") as file:
            file.write(text[:40])
            file.flush()
            time.sleep(0.05)
            file.write(text[40:])

    def come_back(self, version):
        """Gone for longer than a look takes, and back."""
        there = os.path.realpath(self.path)
        os.remove(there)
        time.sleep(LOOK + 0.5)
        with open(there + ".new", "wb") as file:
            file.write(zone(version))
        os.replace(there + ".new", there)


class Asker(threading.Thread):
    """Asks for the version all the time, over one socket."""

    def __init__(self, port, over):
        super().__init__()
        self.port, self.over = port, over
        self.seen, self.asked, self.lost, self.wrong, self.fell = 0, 0, 0, [], []

    def run(self):
        with Client(self.port) as client:
            while not self.over.is_set():
                self.asked += 1
                reply = client.ask(QUERY, 1)
                if reply is None:
                    self.lost += 1
                    continue
                versions = VERSION.findall(reply)
                if len(versions) != 1 or reply[2:4] != b"\x84\x00":
                    self.wrong.append(reply)
                    continue
                version = int(versions[0])
                if version < self.seen:
                    self.fell.append((self.seen, version))
                self.seen = version


def memory(server):
    with open(f"/proc/{server.process.pid}/statm") as file:
        return int(file.read().split()[1]) * os.sysconf("SC_PAGE_SIZE") >> 10


def own(server):
    """Its resident memory that isn't the program's file, in KiB."""
    with open(f"/proc/{server.process.pid}/status") as file:
        return next(int(line.split()[1]) for line in file if line.startswith("RssAnon"))


def changed(rows, changes):
    with tempfile.TemporaryDirectory() as folder:
        kept = Zone(folder)
        conf = ".:{port} {\n\treload 2s 1s\n\tfile " + kept.path + " example.org\n}\n"
        with Served(conf, "--workers", "4") as server:
            rows.row("it serves the first version", server.is_serving(QUERY))
            over = threading.Event()
            askers = [Asker(server.port, over) for _ in range(CLIENTS)]
            for asker in askers:
                asker.start()
            ways = [kept.rename, kept.write, kept.swap, kept.come_back]
            missed, first = [], None
            for version in range(2, changes + 2):
                way = ways[version % len(ways)]
                way(version)
                end = time.monotonic() + 3 * LOOK
                while time.monotonic() < end and not all(asker.seen == version for asker in askers):
                    time.sleep(0.02)
                if not all(asker.seen == version for asker in askers):
                    missed.append((version, way.__name__, [asker.seen for asker in askers]))
                if version == CHANGES + 1:
                    first = memory(server)
            last = memory(server)
            over.set()
            for asker in askers:
                asker.join()
            asked = sum(asker.asked for asker in askers)
            rows.equal(f"each of {changes} versions reached every client", missed, [])
            rows.equal("every reply was of one version", [reply for asker in askers for reply in asker.wrong], [])
            rows.equal("no client saw an older version again", [fall for asker in askers for fall in asker.fell], [])
            lost = sum(asker.lost for asker in askers)
            rows.row("few datagrams were lost", lost * 1000 <= asked, (lost, asked))
            rows.row("the server goes on", server.process.poll() is None)
            if changes > CHANGES:
                rows.row("it has no more memory than behind the first eight, but for a tenth", last * 10 <= first * 11, (first, last))
            print(f"# {asked} queries, {lost} lost; {last} KiB resident", flush=True)


def goes(rows):
    """A large zone is replaced by a small one while a worker is held by a query of the first. With its answer nothing changes any more, and the next
    look takes the memory of the large zone home."""
    with tempfile.TemporaryDirectory() as folder:
        path = os.path.join(folder, "zone")
        with open(path, "wb") as file:
            file.write(zone(1) + b"".join(b"h%x A 10.0.0.1\n A 10.0.0.2\n" % owner for owner in range(OWNERS)))
        slow = Upstream([f"* * other-id delay {SLOW}"])
        to = f" 127.0.0.1:{slow.port}" * UPSTREAMS
        conf = ".:{port} {\n\treload 2s 1s\n\tfile " + path + " example.org\n\tforward ." + to + " {\n\t\tpolicy sequential\n\t\tforce_tcp\n\t}\n}\n"
        with Served(conf, "--workers", "1") as server, Client(server.port) as client:
            rows.row("it serves a large zone", server.is_serving(QUERY))
            whole = own(server)
            client.send(query_bytes(["held.test", "A"]))
            end = time.monotonic() + LOOK
            while time.monotonic() < end and not slow.take_asked():
                time.sleep(0.02)
            with open(path + ".new", "wb") as file:
                file.write(zone(2))
            os.replace(path + ".new", path)
            rows.equal("a small zone is taken up", server.note(), "reload published 1")
            held = own(server)
            rows.row("the large one stays while a worker is held", 10 * held >= 9 * whole, (whole, held))
            client.socket.settimeout(2 * SLOW * UPSTREAMS)
            rows.row("the worker has its answer", client.socket.recv(512)[3] & 15 == 2)
            still, end = own(server), time.monotonic() + 2 * LOOK
            while time.monotonic() < end and 3 * own(server) > 2 * held:
                time.sleep(0.02)
            behind = own(server)
            rows.row("the large one goes at the next look", 3 * behind <= 2 * held, (whole, held, still, behind))
            rows.equal("that look finds nothing", server.noted(), [])
            print(f"# {whole} KiB with the large zone, {held} with both, {still} with the answer, {behind} behind a look", flush=True)
        slow.end()


def locked(rows):
    """A file that loses its rights: the look is refused and told, the old version serves, and with the rights the new one does."""
    with tempfile.TemporaryDirectory() as folder:
        os.chmod(folder, 0o755)
        path = os.path.join(folder, "zone")
        with open(path, "wb") as file:
            file.write(zone(1))
        os.chmod(path, 0o644)
        # Root reads whatever the rights say.
        plain = {"user": 65534, "group": 65534} if os.geteuid() == 0 else {}
        try:
            subprocess.run([PROGRAM], capture_output=True, timeout=60, **plain)
        except OSError:
            print("skipped: a file without rights, since another user can't start the program")
            return
        with Served(".:{port} {\n\treload 2s 1s\n\tfile " + path + " example.org\n}\n", mode=0o755, **plain) as server:
            rows.row("it serves without the rights of root", server.is_serving(QUERY))
            with Client(server.port) as client:
                os.chmod(path, 0)
                with open(path + ".new", "wb") as file:
                    file.write(zone(2))
                os.chmod(path + ".new", 0)
                os.replace(path + ".new", path)
                line = server.process.stderr.readline().decode()
                while line and not line.startswith("reload"):
                    line = server.process.stderr.readline().decode()
                rows.equal("a file without rights is told", line, f"reload cannot read {path}\n")
                rows.equal("the version before serves", VERSION.findall(client.ask(QUERY) or b""), [b"000001"])
                os.chmod(path, 0o644)
                end = time.monotonic() + 3 * LOOK
                while time.monotonic() < end and VERSION.findall(client.ask(QUERY) or b"") != [b"000002"]:
                    time.sleep(0.05)
                rows.equal("with its rights the new one does", VERSION.findall(client.ask(QUERY) or b""), [b"000002"])


def main():
    needs_program()
    rows = Rows()
    changed(rows, int(sys.argv[1]) if len(sys.argv) > 1 else CHANGES)
    goes(rows)
    locked(rows)
    rows.end()


if __name__ == "__main__":
    main()
