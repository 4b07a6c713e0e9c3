"""The built program under test: starts it on loopback, asks it, and ends what was started, by pid.

A test script prints one line a row, `ok TEXT` or `not ok TEXT`, and ends with status 1 where a row failed.
"""
import os
import random
import select
import socket
import subprocess
import sys
import tempfile
import time

TOP = os.path.dirname(os.path.dirname(os.path.dirname(os.path.abspath(__file__))))
PROGRAM = os.environ.get("DNSCHAIN_UNDER_TEST") or os.path.join(TOP, "crates", "dnschain", "out", "dnschain")
SECONDS = 10


class Rows:
    """The rows of a script, printed as they come."""

    def __init__(self):
        self.failed = 0

    def row(self, text, holds, got=None):
        print(f"ok {text}" if holds else f"not ok {text}: got {got!r}", flush=True)
        self.failed += not holds

    def equal(self, text, got, want):
        self.row(text, got == want, got)

    def end(self):
        sys.exit(1 if self.failed else 0)


def free_port():
    """A port that nothing has at the moment over UDP or TCP, below those that the system gives to clients.

    A client that asks before the server stands could be given the server's port otherwise, and would hear itself.
    """
    while True:
        port = random.randrange(20000, 32000)
        with socket.socket(socket.AF_INET, socket.SOCK_DGRAM) as probe, socket.socket(socket.AF_INET, socket.SOCK_STREAM) as other:
            try:
                probe.bind(("0.0.0.0", port))
                other.bind(("0.0.0.0", port))
                return port
            except OSError:
                pass


def corefile(folder, text):
    path = os.path.join(folder, "Corefile")
    with open(path, "wb") as file:
        file.write(text if isinstance(text, bytes) else text.encode())
    return path


def status_of(*words):
    """The status and what was written, of a run that ends by itself."""
    ran = subprocess.run([PROGRAM, *words], capture_output=True, timeout=SECONDS)
    return ran.returncode, ran.stdout, ran.stderr


class Served:
    """A server for a Corefile, which ends with the `with` block. `{port}` in the text is a free port, or the one that is given.

    Its folder has these rights, it runs under the command `under`, and the process is what `subprocess.Popen` makes of the other names, as
    another user.
    """

    def __init__(self, text, *words, mode=0o700, under=(), port=None, **process):
        self.text, self.words, self.mode, self.under, self.given, self.named = text, words, mode, under, port, process
        self.said = b""

    def __enter__(self):
        self.room = tempfile.TemporaryDirectory()
        os.chmod(self.room.name, self.mode)
        self.port = self.given or free_port()
        self.path = corefile(self.room.name, self.text.replace("{port}", str(self.port)))
        self.process = subprocess.Popen(
            [*self.under, PROGRAM, "serve", "--conf", self.path, *self.words],
            stdout=subprocess.PIPE, stderr=subprocess.PIPE, **self.named,
        )
        return self

    def __exit__(self, *_):
        if self.process.poll() is None:
            self.process.kill()
        self.process.wait(SECONDS)
        self.process.stdout.close()
        self.process.stderr.close()
        self.room.cleanup()

    def status(self):
        return self.process.wait(SECONDS)

    def noted(self):
        """Ends the server, and gives the lines that it wrote on standard error."""
        self.process.kill()
        self.process.wait(SECONDS)
        return self.process.stderr.read().decode().splitlines()

    def note(self, but=None, seconds=SECONDS):
        """The next whole line on standard error that isn't `but`, or None where none comes in time. Without `readline`, whose buffer hides lines."""
        end = time.monotonic() + seconds
        while True:
            line, found, self.said = self.said.partition(b"\n")
            if found and line.decode() != but:
                return line.decode()
            if not found:
                self.said = line
                if not select.select([self.process.stderr], [], [], max(0, end - time.monotonic()))[0]:
                    return None
                more = os.read(self.process.stderr.fileno(), 4096)
                if not more:
                    return None
                self.said += more

    def is_serving(self, query, seconds=SECONDS):
        """Whether a query is answered in time, asked again while the program starts."""
        end = time.monotonic() + seconds
        while time.monotonic() < end and self.process.poll() is None:
            with Client(self.port) as client:
                if client.ask(query, 0.2) is not None:
                    return True
            time.sleep(0.01)
        return False


class Client:
    """A UDP socket of a client on loopback."""

    def __init__(self, port, family=socket.AF_INET):
        self.socket = socket.socket(family, socket.SOCK_DGRAM)
        self.socket.connect(("127.0.0.1" if family == socket.AF_INET else "::1", port))
        self.port = self.socket.getsockname()[1]

    def __enter__(self):
        return self

    def __exit__(self, *_):
        self.socket.close()

    def send(self, message):
        try:
            self.socket.send(message)
        except ConnectionRefusedError:
            pass

    def ask(self, message, seconds=1.0):
        """The first datagram that comes in time, or None."""
        self.send(message)
        self.socket.settimeout(seconds)
        try:
            return self.socket.recv(65535)
        except (TimeoutError, ConnectionRefusedError):
            return None


def needs_program():
    if not os.access(PROGRAM, os.X_OK):
        print(f"not ok the program is built: there is no {os.path.relpath(PROGRAM, TOP)} (make build)")
        sys.exit(1)
