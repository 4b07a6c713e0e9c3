"""Fuzzers of texts that an operator gives: Corefiles with imports, zone files, hosts files, command lines. Each holds what the program does against a
meaning written apart: corefile_model.py, NSD, a reading of hosts(5), and the grammar of the words.

A run by a Corefile that is accepted ends with `cannot open`, since its port is held here.
"""
import ipaddress
import os
import re
import shutil
import socket
import subprocess
import sys
import tempfile
import time

sys.path.insert(0, os.path.dirname(os.path.dirname(os.path.abspath(__file__))))
import corefile_model  # noqa: E402
from made_zones import MadeZone  # noqa: E402
from message import query_bytes, reply_lines  # noqa: E402
from program import PROGRAM, SECONDS, Client, Served  # noqa: E402
from servers import NSD, dnschain, nsd, write  # noqa: E402

USAGE = "usage: dnschain serve --conf FILE [--port N] [--workers N] [--queries N], or dnschain load N\n"
DIRECTIVES = {"acl", "any", "cache", "cancel", "debug", "dns64", "errors", "file", "forward", "health", "hosts", "log", "loop", "pprof", "prometheus",
              "ready", "reload", "rewrite", "sinkhole", "template", "whoami"}
# What a directive's words may come to, once the language is well.
OF_DIRECTIVES = re.compile(r"corefile line (\d+): (directive: [a-z]+|zone file line \d+: [a-z]+)|too many [a-z ]+: \d+|stock of sinkhole: asked \d+, had \d+")
CHECKZONE = shutil.which("nsd-checkzone") or "/usr/sbin/nsd-checkzone"


class Held:
    """Ports over UDP that nobody else can open: one that is free, and these."""

    def __init__(self, *others):
        self.others = others

    def __enter__(self):
        self.sockets, self.ports = [], []
        for port in (0, *self.others):
            held = socket.socket(socket.AF_INET6, socket.SOCK_DGRAM)
            held.setsockopt(socket.IPPROTO_IPV6, socket.IPV6_V6ONLY, 0)
            self.sockets.append(held)
            try:
                held.bind(("::", port))
                self.ports.append(held.getsockname()[1])
            except OSError:
                # Somebody has it, or this user may not: then the program can't open it either.
                self.ports.append(port)
        self.port = self.ports[0]
        return self

    def __exit__(self, *_):
        for held in self.sockets:
            held.close()


def ended(words, room, env=None, seconds=60):
    """The status of a run and its lines on standard output; None for the status where it doesn't end."""
    process = subprocess.Popen([PROGRAM, *words], cwd=room, env=env, stdout=subprocess.PIPE, stderr=subprocess.DEVNULL)
    try:
        out, _ = process.communicate(timeout=seconds)
        return process.returncode, out.decode("utf-8", "replace")
    except subprocess.TimeoutExpired:
        return None, ""
    finally:
        if process.poll() is None:
            process.kill()
            process.communicate()


TOKENS = ["{", "}", '"', "#", "import", "s1", "s2", "f1", "f2", "none", "(s1)", "(s2)", "()", "whoami", "errors", "log", "any", "reload", "health", "cache",
          "acl", "block", "{$A}", "{$NONE}", "{$B}x", ".", "example.org", "example.org:53", "a.b:1053", "A.B", "a..b", "dns://a", "tls://a", "10.0.0.0/8",
          "10.1.0.0/12", "2001:db8::/32", "2001:db8::/33:53", "a:0", "a:70000", ",", "a,b", "b,,c", '"a b"', '"x', '"y"z', '""', "\\", "\\200", "\\300", "\t", "\r", "é"]
BLOCK = [["errors"], ["whoami"], ["log"], ["any"], ["health", ":8080"], ["reload", "3s"], ["import", "s1"], ["import", "f1"], ["import", "f2"],
         ["acl", "{"], ["block", "net", "10.0.0.0/8"], ["}"], ["whoamy"], ["#", "x", "{"]]


def some_lines(dice, count):
    return [list(dice.choice(BLOCK)) for _ in range(count)]


def some_text(dice):
    """A text that may be a Corefile: blocks, snippets and imports, then some words, lines or bytes changed."""
    lines = []
    for _ in range(dice.choice([0, 1, 1, 2, 3])):
        kind = dice.random()
        if kind < 0.3:
            lines += [[f"(s{dice.randrange(1, 3)})", "{"], *some_lines(dice, dice.randrange(4)), ["}"]]
        elif kind < 0.4:
            lines += [["import", dice.choice(["s1", "s2", "f1", "f2"])]]
        else:
            keys = [dice.choice([".", "example.org", "a.test:1053,", "b.test", "10.0.0.0/8", "dns://c.test"]) for _ in range(dice.choice([1, 1, 2]))]
            lines += [[*keys, "{"], *some_lines(dice, dice.randrange(6)), ["}"]]
    for _ in range(dice.choice([0, 0, 1, 1, 2, 3])):
        if not lines:
            break
        line, kind = dice.choice(lines), dice.randrange(5)
        if kind == 0 and line:
            line[dice.randrange(len(line))] = dice.choice(TOKENS)
        elif kind == 1:
            line.insert(dice.randrange(len(line) + 1), dice.choice(TOKENS))
        elif kind == 2:
            lines.remove(line)
        elif kind == 3:
            lines.insert(dice.randrange(len(lines) + 1), list(line))
        elif line:
            line.pop(dice.randrange(len(line)))
    text = bytearray(b"".join(dice.choice(["", "", " ", "\t "]).encode() + " ".join(line).encode() + dice.choice([b"\n", b"\n", b"\n\n", b"\r\n"]) for line in lines))
    for _ in range(dice.choice([0, 0, 0, 1, 2])):
        if text:
            at = dice.randrange(len(text))
            text[at:at + dice.randrange(3)] = dice.choice([b"\n", b"\"", b"\xff", b"{", b" ", b"\\", b"#", b"\xc3", b"\x00", b""])
    return bytes(text)


def corefiles(dice, until, found):
    tried, kinds = 0, set()
    env = {**os.environ, "A": "example.net", "B": ""}
    with tempfile.TemporaryDirectory() as room, Held(53, 1053) as held:
        while time.monotonic() < until and len(found) < 3:
            texts = {name: some_text(dice) for name in ("Corefile", "f1", "f2")}
            if dice.random() < 0.2:
                texts["f2"] = None
            for name, text in texts.items():
                path = os.path.join(room, name)
                if text is not None:
                    with open(path, "wb") as file:
                        file.write(text)
                elif os.path.exists(path):
                    os.remove(path)
            got = ended(["serve", "--conf", "Corefile", "--port", str(held.port)], room, env, 20)
            why = not_meant(texts, env, held, got)
            if why and got[0] is None:
                # On a busy machine it may not have ended in time.
                got = ended(["serve", "--conf", "Corefile", "--port", str(held.port)], room, env, 200)
                why = not_meant(texts, env, held, got)
            tried += 1
            kinds.add(re.sub(r"\d+", "N", got[1]))
            if why:
                found.append((why, got, texts))
    if tried > 300 and len(kinds) < 15:
        found.append(("hardly any kinds of ends", kinds))
    return tried


def not_meant(texts, env, held, got):
    """Why an end isn't what the texts mean, or None."""
    files = {name: text for name, text in texts.items() if text is not None}
    status, out = got
    unread = re.fullmatch("cannot read (.*)\n", out, re.DOTALL)
    if status == 3 and unread:
        # A folder, or a name that no file can have.
        return None if "\0" in unread[1] or re.fullmatch("[./]+", unread[1]) else "a file that can be read"
    try:
        blocks, ports = corefile_model.read(texts["Corefile"], files, env, held.port)
    except corefile_model.Fault as fault:
        return None if got == (1, f"{fault}\n") else f"the language says {fault}"
    if not blocks:
        return None if got == (0, "") else "an empty Corefile"
    if out.startswith("too many workers: ") and status == 1:
        return None
    directives = [it for block in blocks for it in block]
    unknown = next((line for line, word, _ in directives if word not in DIRECTIVES), None)
    if status == 1 and unknown is not None and out == f"corefile line {unknown}: unknown directive\n":
        return None
    told = OF_DIRECTIVES.fullmatch(out.rstrip("\n"))
    if told and status in (1, 5) and (told[1] is None or any(int(told[1]) in lines for _, _, lines in directives)):
        return None
    if unknown is None and got == (3, "cannot open\n"):
        return None
    # Ports that aren't held can be opened, and then it serves.
    serves = unknown is None and status is None and not ports & set(held.ports)
    return None if serves else "neither accepted nor refused for a directive"


def relaid(dice, zone):
    """The text of a made zone in another layout: letters, comments, parentheses, owners and TTLs that are left out."""
    lines, owner_before = [f"$ORIGIN {zone.origin}", f"$TTL {dice.choice(['300', '5m', '1h'])}"], None
    for line in zone.lines:
        owner, ttl, _, kind, data = line.split(" ", 4)
        if kind == "SOA" and dice.random() < 0.7:
            words = data.split(" ")
            data = f"{words[0]} {words[1]} ( {words[2]} ; serial\n\t{' '.join(words[3:6])}\n {words[6]} )"
        shown = "" if owner == owner_before and dice.random() < 0.4 else owner
        owner_before = owner
        if shown and dice.random() < 0.2:
            shown = f"{shown}.{zone.origin}" if shown != "@" else zone.origin
        if shown and dice.random() < 0.2:
            shown = "".join(f"\\{ord(it):03}" if it.isalnum() and dice.random() < 0.2 else it for it in shown)
        head = [str(ttl), "IN"] if dice.random() < 0.5 else ["IN", str(ttl)]
        lines.append(dice.choice([" ", "\t", "   "]).join([shown, *head, kind]) + " " + data + dice.choice(["", "", " ; a comment", "\t"]))
    return "\n".join(lines) + "\n"


def mutated_text(dice, text):
    data = bytearray(text.encode())
    for _ in range(dice.choice([1, 1, 2, 4])):
        at, kind = dice.randrange(len(data)), dice.randrange(4)
        if kind == 0:
            data[at] = dice.choice(b'\n\t "();\\@$*.0aA')
        elif kind == 1:
            del data[at:at + dice.choice([1, 1, 3, 20])]
        elif kind == 2:
            data[at:at] = dice.choice([b"(", b")", b'"', b";", b"\\", b"@ ", b"$TTL 5\n", b"$ORIGIN x\n", b" IN ", b"\n", b"\xff", b" TYPE65 \\# 1 00", b".", b"*."])
        else:
            end = at + dice.randrange(60)
            data[at:at] = data[at:end]
    return bytes(data)


def zones(dice, until, found):
    """Zones in another layout, and changed ones: each ends as accepted or by its line; those that NSD accepts too are served by both."""
    tried, counts = 0, {"both": 0, "NSD alone": 0, "this server alone": 0, "neither": 0}
    while time.monotonic() < until and len(found) < 3:
        with tempfile.TemporaryDirectory() as room, Held() as held:
            os.chmod(room, 0o755)
            good = []
            for number in range(20):
                zone = MadeZone(f"z{number}.test.", dice.random())
                path = os.path.join(room, f"{zone.origin}zone")
                text = relaid(dice, zone)
                with open(path, "wb") as file:
                    file.write(mutated_text(dice, text) if dice.random() < 0.6 else text.encode())
                tried += 1
                ours = accepted(room, path, zone.origin, held.port, found)
                theirs = NSD and subprocess.run([CHECKZONE, zone.origin, path], capture_output=True, timeout=SECONDS).returncode == 0
                counts["both" if ours and theirs else "this server alone" if ours else "NSD alone" if theirs else "neither"] += 1
                good += [zone] if ours and theirs else []
            if NSD and good and time.monotonic() < until:
                served_alike(dice, room, good, found)
    print(f"# zones: {counts}", flush=True)
    return tried


def accepted(room, path, origin, port, found):
    write(room, "Corefile", f". {{\n\tfile {path} {origin}\n}}\n")
    got = ended(["serve", "--conf", "Corefile", "--port", str(port)], room)
    if got == (3, "cannot open\n"):
        return True
    if got[0] != 1 or not re.fullmatch(r"corefile line 2: zone file line \d+: [a-z]+\n|too many zone records: 100001\n", got[1]):
        with open(path, "rb") as file:
            found.append(("the end of a zone", got, file.read()))
    return False


def served_alike(dice, room, good, found):
    """The same questions to the program and to NSD: every reply alike, or other for a reason that tests/zones.py knows."""
    from zones import KNOWN, Reply
    files = "".join(f"\tfile {room}/{zone.origin}zone {zone.origin}\n" for zone in good)
    servers = [dnschain(room, f"test:{{port}} {{\n{files}}}\n")]
    try:
        servers.append(nsd(room, [(zone.origin, f"{room}/{zone.origin}zone") for zone in good]))
        if not all(server.is_serving(query_bytes([good[-1].origin, "SOA", "nord"])) for server in servers):
            found.append(("a server of zones that both accept doesn't serve", [server.process.poll() for server in servers]))
            return
        for zone in good:
            for _ in range(10):
                name, kind = zone.question()
                query = query_bytes([name, kind, "nord", "bufsize=4096"])
                mine, theirs = (server.ask(query) for server in servers)
                if mine is None or theirs is None:
                    found.append(("no reply", name, kind, mine, theirs))
                    continue
                mine, theirs = Reply(mine), Reply(theirs)
                if not mine.same_but(theirs) and not any(reason(mine, theirs) for reason in KNOWN["NSD"]):
                    with open(f"{room}/{zone.origin}zone", "rb") as file:
                        found.append(("another answer than NSD's", name, kind, mine.lines, theirs.lines, file.read()))
    finally:
        for server in servers:
            server.end()


JUNK = ["", "#", "# x", "x y", "999.1.1.1 bad.test", "10.0.0 bad.test", "::g bad.test", "1::2::3 bad.test", "10.0.0.1", "10.0.0.1/8 bad.test", "nameserver 10.0.0.1"]
BAD_NAMES = ["..", "a..b", "x" * 64, ".a", "b\\", "\\999"]


def hosts_text(dice):
    """A hosts file, and what it lists by hosts(5): addresses with names, in order."""
    lines, listed = [], []
    names = [f"{dice.choice(['a', 'b', 'Host', 'deep.er', 'x-1'])}{number}.test" for number in range(8)]
    for _ in range(dice.randrange(30)):
        if dice.random() < 0.25:
            lines.append(dice.choice(JUNK))
            continue
        address = ipaddress.IPv4Address(dice.getrandbits(32)) if dice.random() < 0.6 else ipaddress.IPv6Address(dice.getrandbits(128))
        words = [dice.choice(names + BAD_NAMES) if dice.random() < 0.9 else dice.choice(names) + "." for _ in range(dice.randrange(1, 5))]
        listed += [(address, word.rstrip(".").lower()) for word in words if word not in BAD_NAMES]
        shown = dice.choice([str(address), address.exploded]) if address.version == 6 else str(address)
        lines.append(dice.choice(["", " ", "\t"]) + shown + dice.choice([" ", "\t", "  "]) + dice.choice([" ", "\t"]).join(words) + dice.choice(["", " # c", "#c", " "]))
    ends = dice.choice(["\n", "\r\n"])
    return ends.join(lines) + dice.choice(["", ends]), listed, sorted(set(name.lower() for name in names))


def hosts(dice, until, found):
    tried = 0
    with tempfile.TemporaryDirectory() as room:
        path = os.path.join(room, "hosts")
        while time.monotonic() < until and len(found) < 3:
            text, listed, names = hosts_text(dice)
            with open(path, "w", newline="") as file:
                file.write(text)
            tried += 1
            with Served(f".:{{port}} {{\n\thosts {path} test\n}}\n") as server:
                if not server.is_serving(query_bytes(["none.example", "A"])):
                    found.append(("a hosts file ends the start", server.process.poll(), text))
                    continue
                with Client(server.port) as client:
                    for asked, want in hosts_questions(listed, names):
                        reply = client.ask(query_bytes([*asked, "bufsize=8192"]))
                        got = reply_lines(reply) if reply is not None else ["no reply"]
                        lines = [line.lower() for line in got if line.startswith("answer")]
                        if (got[0].split(" ")[0], lines) != want:
                            found.append((asked, got, want, text))
    return tried


def hosts_questions(listed, names):
    """Questions with the RCODE and the answers in order."""
    for name in names:
        of_name = [address for address, other in listed if other == name]
        for kind, version in (("A", 4), ("AAAA", 6)):
            lines = [f"answer {name}. 3600 in {kind.lower()} {address}" for address in of_name if address.version == version]
            yield (name, kind), ("NOERROR" if of_name else "SERVFAIL", lines)
    for address in {address for address, _ in listed}:
        lines = [f"answer {address.reverse_pointer}. 3600 in ptr {name}." for other, name in listed if other == address]
        yield (address.reverse_pointer, "PTR"), ("NOERROR", lines)


def is_number(text, least, most):
    return re.fullmatch("[0-9]{1,10}", text) is not None and least <= int(text) <= most


def is_command(words):
    """Whether words are a command that is built, by the grammar: options once, in any order and in two spellings."""
    if not words or words[0] != "serve":
        return False
    given, rest = {}, list(words[1:])
    ranges = {"--port": (1, 65_535), "--workers": (1, 16), "--queries": (1, 1_000_000_000)}
    while rest:
        option, equals, value = rest.pop(0).partition("=")
        if option not in ("--conf", *ranges) or option in given:
            return False
        if not equals:
            if not rest:
                return False
            value = rest.pop(0)
        if not value or value.startswith("-") or option in ranges and not is_number(value, *ranges[option]):
            return False
        given[option] = value
    return "--conf" in given


def some_words(dice, conf):
    words = [dice.choice(["serve"] * 12 + ["load", "Serve", "", "help", "--help"])]
    for _ in range(dice.choice([0, 1, 1, 2, 3, 4])):
        option = dice.choice(["--conf"] * 3 + ["--port", "--workers", "--queries", "--Port", "-p", "--", "--conf=", "x"])
        value = dice.choice([conf, conf, "1", "16", "17", "0", "65535", "65536", "1000000000", "1000000001", "0000000001", "00000000001", "", "-1", "-x", "+1", "1 ", "٣", "1e3"])
        words += [f"{option}={value}"] if dice.random() < 0.4 else [option, value] if dice.random() < 0.95 else [option]
    if dice.random() < 0.8 and "--conf" not in words:
        words += ["--conf", conf]
    return words


def words(dice, until, found):
    """Words that are a command find no Corefile, and all others are told the usage."""
    tried, commands = 0, 0
    with tempfile.TemporaryDirectory() as room:
        while time.monotonic() < until and len(found) < 3:
            given = some_words(dice, "missing")
            got = ended(given, room)
            tried += 1
            commands += is_command(given)
            want = (1, "no corefile\n") if is_command(given) else (2, USAGE)
            if got != want:
                found.append((given, got, want))
    if tried > 100 and not 0 < commands < tried:
        found.append(("no words or all words were a command", tried, commands))
    return tried
