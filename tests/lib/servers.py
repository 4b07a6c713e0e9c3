"""The program, NSD and Knot, each on a port of its own with the same zones, for tests and benches that hold them against one another.

Each may be started by a command that stands in front of its own words, such as one that counts its instructions.
"""
import os
import shutil
import socket
import subprocess
import time

from program import PROGRAM, Client, free_port

START_SECONDS = 60
NSD = shutil.which("nsd") or ("/usr/sbin/nsd" if os.path.exists("/usr/sbin/nsd") else None)
KNOT = shutil.which("knotd") or ("/usr/sbin/knotd" if os.path.exists("/usr/sbin/knotd") else None)
NSD_CONF = """server:
  ip-address: 127.0.0.1@{port}
  username: ""
  zonesdir: "{room}"
  database: ""
  logfile: "{room}/nsd.log"
  pidfile: "{room}/nsd.pid"
  xfrdfile: "{room}/xfrd.state"
  xfrdir: "{room}"
  zonelistfile: "{room}/zone.list"
  server-count: 1
  minimal-responses: no
  round-robin: no
  rrl-ratelimit: 0
remote-control:
  control-enable: no
"""
KNOT_CONF = """server:
  listen: 127.0.0.1@{port}
  rundir: "{room}"
  udp-workers: 1
  tcp-workers: 1
  background-workers: 1
database:
  storage: "{room}/knot"
log:
  - target: "{room}/knot.log"
    any: warning
template:
  - id: default
    storage: "{room}"
    semantic-checks: soft
zone:
"""


class Server:
    """A server of the zones on a port of its own."""

    def __init__(self, name, words, port, room):
        self.name, self.port = name, port
        self.errors = open(os.path.join(room, name + ".stderr"), "wb")
        self.process = subprocess.Popen(words, stdout=subprocess.DEVNULL, stderr=self.errors)
        self.socket = socket.socket(socket.AF_INET, socket.SOCK_DGRAM)
        self.socket.connect(("127.0.0.1", port))

    def ask(self, query, seconds=2.0):
        self.socket.settimeout(seconds)
        try:
            self.socket.send(query)
            while True:
                reply = self.socket.recv(65535)
                if reply[:2] == query[:2]:
                    return reply
        except (TimeoutError, ConnectionRefusedError):
            return None

    def is_serving(self, query, seconds=START_SECONDS):
        """Whether a query gets NOERROR in time; each try is a client of its own, since its reply may come late."""
        end = time.monotonic() + seconds
        while time.monotonic() < end and self.process.poll() is None:
            with Client(self.port) as client:
                reply = client.ask(query, 0.2)
            if reply is not None and reply[3] & 15 == 0:
                return True
            time.sleep(0.05)
        return False

    def end(self):
        self.socket.close()
        if self.process.poll() is None:
            self.process.terminate()
        try:
            self.process.wait(START_SECONDS)
        except subprocess.TimeoutExpired:
            self.process.kill()
            self.process.wait(START_SECONDS)
        self.errors.close()


def write(room, name, text):
    path = os.path.join(room, name)
    with open(path, "w") as file:
        file.write(text)
    return path


def dnschain(room, corefile, front=()):
    """The program by this Corefile, whose `{port}` becomes its port."""
    port = free_port()
    conf = write(room, "Corefile", corefile.replace("{port}", str(port)))
    return Server("dnschain", [*front, PROGRAM, "serve", "--conf", conf], port, room)


def nsd(room, zones, front=()):
    """NSD with the zones of these origins and files."""
    port = free_port()
    lines = "".join(f'zone:\n  name: "{origin}"\n  zonefile: "{path}"\n' for origin, path in zones)
    conf = write(room, "nsd.conf", NSD_CONF.format(port=port, room=room) + lines)
    return Server("NSD", [*front, NSD, "-d", "-c", conf], port, room)


def knot(room, zones, front=()):
    """Knot with the zones of these origins and files."""
    port = free_port()
    os.makedirs(os.path.join(room, "knot"), exist_ok=True)
    lines = "".join(f'  - domain: "{origin}"\n    file: "{path}"\n' for origin, path in zones)
    conf = write(room, "knot.conf", KNOT_CONF.format(port=port, room=room) + lines)
    return Server("Knot", [*front, KNOT, "-c", conf], port, room)
