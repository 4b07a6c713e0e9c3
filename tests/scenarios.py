"""The scenarios under tests/scenarios/ and the TRY files of the examples, against the built program on loopback.

A scenario is a text of steps, told in docs/TESTING.md. This runner starts the program, makes the steps in order, and prints a line for each
that checks something. With names of files as words it runs these alone.
"""
import fnmatch
import os
import re
import shlex
import shutil
import socket
import subprocess
import sys
import tempfile
import time

sys.path.insert(0, os.path.join(os.path.dirname(os.path.abspath(__file__)), "lib"))
from message import query_bytes, reply_lines  # noqa: E402
from program import PROGRAM, SECONDS, TOP, Rows, free_port, needs_program  # noqa: E402
from upstream import Upstream  # noqa: E402

FOLDER = os.path.join(TOP, "tests", "scenarios")
PROBE = query_bytes(["probe.invalid", "A"])
LATER_SECONDS = 30


def steps_of(text):
    """The steps of a scenario: each line that isn't indented, with the indented lines below it. `#` begins a comment."""
    steps, blanks = [], 0
    for line in text.split("\n"):
        if line.startswith("    ") and steps:
            steps[-1][1].extend([""] * blanks + [line[4:]])
            blanks = 0
        elif not line.strip():
            blanks += bool(steps and steps[-1][1])
        else:
            blanks = 0
            if not line.startswith("#"):
                steps.append((line, []))
    return steps


class Run:
    """One run of the program, with a folder of its own. `{port}`, `{port2}`, `{dir}` and the ports of its upstreams in a text are what they are here."""

    def __init__(self, room):
        self.room, self.process, self.words, self.env, self.client = room, None, [], dict(os.environ), 0
        self.upstreams, self.later = {}, {}
        self.ports = {"port": free_port(), "port2": free_port()}
        self.noted, self.read = [], 0
        self.errors = os.path.join(room, ".stderr")
        self.told = os.path.join(room, ".stdout")

    def filled(self, text, **others):
        for key, value in {**self.ports, "dir": self.room, **others}.items():
            text = text.replace("{" + key + "}", str(value))
        return text

    def put(self, name, lines):
        """Writes a file aside and renames it, as editors and `mv` do."""
        path = os.path.join(self.room, name)
        with open(path + ".new", "w") as file:
            file.write(self.filled("\n".join(lines) + "\n"))
        os.replace(path + ".new", path)

    def start(self):
        conf = os.path.join(self.room, "Corefile")
        words = [self.filled(word) for word in self.words]
        with open(self.told, "wb") as told, open(self.errors, "wb") as errors:
            self.process = subprocess.Popen([PROGRAM, "serve", "--conf", conf, *words], stdout=told, stderr=errors, env=self.env)

    def started(self):
        """Starts the program where it wasn't yet, and waits until it answers, whatever it answers, or has ended."""
        if self.process is None:
            self.start()
            end = time.monotonic() + SECONDS
            while time.monotonic() < end and self.process.poll() is None and self.ask(PROBE, 0.2)[0] is None:
                time.sleep(0.01)

    def udp_client(self, address, port):
        """A socket of a client of its own."""
        family = socket.AF_INET6 if ":" in address else socket.AF_INET
        client = socket.socket(family, socket.SOCK_DGRAM)
        if family == socket.AF_INET:
            client.bind((address, 0))
        client.connect(("::1" if family == socket.AF_INET6 else "127.0.0.1", self.ports[port]))
        return client

    def ask(self, message, seconds=2.0, address="127.0.0.1", port="port"):
        """The reply to a message, or None, and the port of the client."""
        with self.udp_client(address, port) as client:
            client.settimeout(seconds)
            try:
                client.send(message)
                return client.recv(65535), client.getsockname()[1]
            except (TimeoutError, ConnectionRefusedError):
                return None, client.getsockname()[1]

    def ask_later(self, label, message, address, port):
        """Asks over UDP, and leaves the reply for a later step."""
        self.later[label] = client = self.udp_client(address, port)
        client.send(message)

    def take_later(self, label):
        """The reply to what was asked so, or None, and the address and port of the client."""
        with self.later.pop(label) as client:
            client.settimeout(LATER_SECONDS)
            address, own = client.getsockname()[:2]
            try:
                return client.recv(65535), address, own
            except (TimeoutError, ConnectionRefusedError):
                return None, address, own

    def ask_tcp(self, message, seconds=2.0, address="127.0.0.1", port="port"):
        """The same over a connection of its own."""
        family = socket.AF_INET6 if ":" in address else socket.AF_INET
        with socket.socket(family, socket.SOCK_STREAM) as client:
            client.settimeout(seconds)
            if family == socket.AF_INET:
                client.bind((address, 0))
            try:
                client.connect(("::1" if family == socket.AF_INET6 else "127.0.0.1", self.ports[port]))
                own = client.getsockname()[1]
                client.sendall(len(message).to_bytes(2, "big") + message)
                stream = client.makefile("rb")
                head = stream.read(2)
                reply = stream.read(int.from_bytes(head, "big")) if len(head) == 2 else b""
                return reply or None, own
            except (TimeoutError, ConnectionError):
                return None, client.getsockname()[1]

    def upstream(self, name, lines):
        """Starts a scripted upstream, whose port is `{NAME}`."""
        self.upstreams[name] = Upstream(lines)
        self.ports[name] = self.upstreams[name].port

    def next_note(self, line):
        """The next line on standard error, in time. A look that comes to the same as the one before repeats its line: unless that is
        the one that is waited for, repeated lines are passed over."""
        end = time.monotonic() + SECONDS
        while time.monotonic() < end:
            with open(self.errors) as file:
                noted = [text for text in file.read().split("\n")[:-1]]
            while len(noted) > self.read:
                self.read += 1
                said, before = noted[self.read - 1], noted[self.read - 2] if self.read > 1 else None
                if said != before or said == line:
                    return said
            time.sleep(0.05)
        return None

    def end(self):
        if self.process is not None and self.process.poll() is None:
            self.process.kill()
        if self.process is not None:
            self.process.wait(SECONDS)
        for it in self.later.values():
            it.close()
        for upstream in self.upstreams.values():
            upstream.end()


def has_ipv6():
    try:
        with socket.socket(socket.AF_INET6, socket.SOCK_DGRAM) as probe:
            probe.bind(("::1", 0))
            return True
    except OSError:
        return False


def query_words(words):
    """The words of a query without those that say how it is asked, and these: the transport, from which address, to which port, and its label
    where a later step compares the reply."""
    how = {"over": "udp", "from": "127.0.0.1", "to": "port", "later": None}
    left, words = [], list(words)
    while words:
        word = words.pop(0)
        if word in ("from", "to", "later"):
            how[word] = words.pop(0)
        elif word == "port2":
            how["to"] = word
        elif word == "tcp":
            how["over"] = word
        else:
            left.append(word)
    return left, how


def take_query(run, rows, line, words, body):
    words, how = query_words(words)
    address = how["from"]
    seconds = 0.3 if body == ["silence"] else 2.0
    if ":" in address and not has_ipv6():
        print(f"skipped {line}: there is no IPv6 on loopback")
        return
    message = bytes.fromhex("".join(words[2:])) if words[1] == "hex" else query_bytes(words[1:])
    if how["to"] not in run.upstreams:
        run.started()
    if how["later"]:
        run.ask_later(how["later"], message, address, how["to"])
        return
    asks = run.ask_tcp if how["over"] == "tcp" else run.ask
    got, client = asks(message, seconds, address, how["to"])
    compare(run, rows, line, got, (address, client), body)


def compare(run, rows, line, got, client, body):
    """A row: whether a reply to a client of this address and port says these lines."""
    address, run.client = client
    want = [run.filled(text, client=address, **{"client-port": run.client}) for text in body]
    if got is None:
        lines = ["silence"]
    elif want and want[0].startswith("hex "):
        lines = ["hex " + got.hex()]
    else:
        asked = any(text.startswith("question ") for text in want)
        lines = [text for text in reply_lines(got) if asked or not text.startswith("question ")]
    rows.row(line, lines == want, lines)


def take_step(run, rows, title, line, body):
    """One step of a scenario. A step that checks gives one row."""
    verb, _, rest = line.partition(" ")
    words = shlex.split(line)
    text = f"{title}: {line}"
    if verb == "corefile":
        run.put("Corefile", body)
    elif verb == "file":
        run.put(rest, body)
    elif verb == "remove":
        os.remove(os.path.join(run.room, rest))
    elif verb == "words":
        run.words = words[1:]
    elif verb == "env":
        name, _, value = run.filled(rest).partition("=")
        run.env[name] = value
    elif verb == "query":
        take_query(run, rows, text, words, body)
    elif verb == "later":
        got, *client = run.take_later(rest)
        compare(run, rows, text, got, client, body)
    elif verb == "wait":
        time.sleep(min(float(rest), SECONDS))
    elif verb == "upstream":
        run.upstream(rest, body)
    elif verb == "asked":
        rows.equal(text, run.upstreams[rest].take_asked(), body)
    elif verb == "noted":
        run.started()
        rows.equal(text, run.next_note(run.filled(rest, **{"client-port": run.client})), run.filled(rest, **{"client-port": run.client}))
    elif verb == "run":
        ran = subprocess.run([PROGRAM, *map(run.filled, words[1:])], capture_output=True, text=True, timeout=SECONDS, env=run.env)
        rows.equal(text, [f"status {ran.returncode}", *ran.stdout.split("\n")[:-1], *ran.stderr.split("\n")[:-1]], [run.filled(line) for line in body])
    elif verb == "ends":
        run.started() if run.process is None else None
        status = run.process.wait(SECONDS)
        with open(run.told) as told:
            rows.equal(text, (status, told.read().split("\n")[:-1]), (int(rest), [run.filled(line) for line in body]))
    else:
        rows.row(f"{title}: a step that the runner knows", False, line)


def run_scenario(rows, path):
    with open(path) as file:
        steps = steps_of(file.read())
    title = next((line.removeprefix("title ") for line, _ in steps if line.startswith("title ")), os.path.basename(path))
    with tempfile.TemporaryDirectory() as room:
        run = Run(room)
        try:
            for line, body in steps:
                if not line.startswith("title "):
                    take_step(run, rows, title, line, body)
        except Exception as fault:  # a step that can't be made is a row that failed, and the others go on
            rows.row(f"{title}: its steps can be made", False, repr(fault))
        finally:
            run.end()


def tries_of(text):
    """The commands of a TRY file with the lines to expect, and the lines that the server notes."""
    tries, lines = [], iter(text.split("\n"))
    for line in lines:
        if line.startswith("$ "):
            want = []
            for out in lines:
                if not out.strip():
                    break
                want.append(out)
            tries.append(("$", line[2:], want))
        elif note := re.match(r"The server notes `(.+)`", line):
            tries.append(("noted", note[1], []))
    return tries


def run_try(rows, example):
    """The commands of an example's TRY, run in a copy of its folder with the server on a free port. `*` stands for any text."""
    name = f"examples/{os.path.basename(example)}"
    if shutil.which("dig") is None:
        print(f"skipped {name}: there is no dig")
        return
    with open(os.path.join(example, "TRY")) as file:
        tries = tries_of(file.read())
    rows.row(f"{name}: TRY has a query", any(what == "$" and command.startswith("dig ") for what, command, _ in tries))
    with tempfile.TemporaryDirectory() as room:
        run = Run(room)
        run.words = ["--port", "{port}"]
        shutil.copytree(example, room, dirs_exist_ok=True)
        with open(os.path.join(room, "Corefile")) as file:
            run.put("Corefile", file.read().replace("5300", "{port}").replace("5301", "{port2}").split("\n")[:-1])
        try:
            run.started()
            for what, command, want in tries:
                if what == "noted":
                    rows.equal(f"{name}: noted {command}", run.next_note(command), command)
                    continue
                words = command.replace("-p 5300", f"-p {run.ports['port']}")
                got = subprocess.run(words, shell=True, cwd=room, capture_output=True, text=True, timeout=30).stdout
                lines = [line.rstrip() for line in got.split("\n") if line.strip()]
                holds = len(lines) == len(want) and all(fnmatch.fnmatchcase(a, glob(b)) for a, b in zip(lines, want))
                rows.row(f"{name}: {command}", holds, lines)
        finally:
            run.end()


def glob(line):
    """A line in which only `*` is special."""
    return re.sub(r"([\[\]?])", r"[\1]", line.rstrip())


def main():
    needs_program()
    rows = Rows()
    chosen = sys.argv[1:]
    for name in sorted(os.listdir(FOLDER)):
        if not chosen or os.path.join("tests/scenarios", name) in chosen or name in chosen:
            run_scenario(rows, os.path.join(FOLDER, name))
    if not chosen:
        examples = os.path.join(TOP, "examples")
        for name in sorted(os.listdir(examples)):
            if os.path.exists(os.path.join(examples, name, "TRY")):
                run_try(rows, os.path.join(examples, name))
    rows.end()


if __name__ == "__main__":
    main()
