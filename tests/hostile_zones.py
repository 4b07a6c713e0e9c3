"""Zone files that somebody wrote to harm: each is a fault at its line, or a zone that is served, in bounded time.

What is expected follows from the rules of master files (docs/plugins/file.md) and is worked out here, never by the program.
"""
import contextlib
import os
import subprocess
import sys
import tempfile
import time

sys.path.insert(0, os.path.join(os.path.dirname(os.path.abspath(__file__)), "lib"))
from message import query_bytes, reply_lines  # noqa: E402
from program import PROGRAM, Client, Rows, free_port, needs_program  # noqa: E402

MOST = 1_048_576
SECONDS = 60
HEAD = "@ 60 IN SOA ns admin 1 7200 3600 1209600 60\n@ NS ns\nns A 192.0.2.1\n"
NAME_BYTES = 255
DIGITS = "abcdefghijklmnopqrstuvwxyz0123456789"


def server(room, text):
    with open(os.path.join(room, "db"), "w") as file:
        file.write(text)
    port = free_port()
    conf = os.path.join(room, "Corefile")
    with open(conf, "w") as file:
        file.write(f"hostile.test:{port} {{\n\tfile {room}/db\n}}\n")
    return port, [PROGRAM, "serve", "--conf", conf]


def refused(rows, room, title, text, line):
    """A row: the start ends with status 1 and this one line."""
    _, words = server(room, text)
    try:
        ran = subprocess.run(words, capture_output=True, timeout=SECONDS)
        got = (ran.returncode, ran.stdout.decode().splitlines())
    except subprocess.TimeoutExpired:
        got = "no end in time"
    rows.equal(f"{title}: {line}", got, (1, [line]))


def held(process):
    """How many MiB of memory a process has had at most."""
    with open(f"/proc/{process.pid}/status") as status:
        return next((int(line.split()[1]) // 1024 for line in status if line.startswith("VmHWM:")), 0)


@contextlib.contextmanager
def started(room, text):
    """The port and the process of a server that serves the zone, or doesn't in time; it ends with the `with` block."""
    port, words = server(room, text)
    process = subprocess.Popen(words, stdout=subprocess.DEVNULL, stderr=subprocess.DEVNULL)
    try:
        # What asks whether it serves by now is a client of its own, since its replies may come late.
        with Client(port) as early:
            end = time.monotonic() + SECONDS
            while time.monotonic() < end and process.poll() is None and early.ask(query_bytes(["hostile.test", "SOA"]), 0.2) is None:
                time.sleep(0.02)
        yield port, process
    finally:
        process.kill()
        process.wait(SECONDS)


def served(rows, room, title, text, *asked, most=512):
    """A row: the zone is served within so many MiB, and each question gets these lines, the RCODE and the answer's records."""
    with started(room, text) as (port, process):
        with Client(port) as client:
            got = []
            for name, kind, _ in asked:
                reply = client.ask(query_bytes([name, kind, "bufsize=4096"]), 5.0)
                lines = reply_lines(reply) if reply else ["silence"]
                got.append([lines[0].split(" ")[0]] + [line for line in lines if line.startswith("answer ")])
        rows.equal(title, (got, max(most, held(process))), ([list(lines) for _, _, lines in asked], most))


def spent(room, text):
    """CPU seconds until a zone is served."""
    with started(room, text) as (_, process), open(f"/proc/{process.pid}/stat") as stat:
        return sum(map(int, stat.read().rsplit(")", 1)[1].split()[11:13])) / os.sysconf("SC_CLK_TCK")


def as_cheap(rows, room, title, text, other, most):
    """A row: until a zone is served it takes at most so many times the CPU time of another one."""
    ratio = spent(room, text) / max(spent(room, other), 0.02)
    rows.equal(title, max(most, round(ratio, 1)), most)


def digits(number, width):
    return "".join(DIGITS[number // len(DIGITS) ** place % len(DIGITS)] for place in range(width))


def long_name(size):
    """A name below hostile.test of so many bytes in wire format."""
    left, labels = size - len("hostile.test") - 2, []
    while left:
        label = min(63, left - 1)
        if left - label - 1 == 1:
            label -= 1
        labels.append("n" * label)
        left -= label + 1
    return ".".join(labels) + ".hostile.test."


def faults(rows, room):
    of = "corefile line 2: zone file line"
    refused(rows, room, "1 MiB of opening parentheses", "(" * (MOST - 1) + "\n", f"{of} 1: syntax")
    refused(rows, room, "1 MiB of closing parentheses", ")" * (MOST - 1) + "\n", f"{of} 1: syntax")
    refused(rows, room, "1 MiB of quotes", '"' * (MOST - 1) + "\n", f"{of} 1: syntax")
    refused(rows, room, "an open quote before 1 MiB of lines", HEAD + 'a TXT "\n' + "\n" * (MOST - 200), f"{of} 4: syntax")
    refused(rows, room, "half a million empty lines in a parenthesis that stays open", HEAD + "a TXT (\n" + "\n" * 500_000, f"{of} 4: syntax")
    refused(rows, room, "1 MiB of backslashes", "\\" * (MOST - 1) + "\n", f"{of} 1: syntax")
    refused(rows, room, "1 MiB of zero bytes", "\0" * (MOST - 1) + "\n", f"{of} 1: syntax")
    refused(rows, room, "one word of 1 MiB", "a" * (MOST - 1) + "\n", f"{of} 1: syntax")
    refused(rows, room, "a byte more than 1 MiB", ";" * (MOST + 1), f"too many file bytes: {MOST + 1}")
    # Each `$ORIGIN a` puts two bytes in front of the zone's wire format, and the first line below the head is the fourth.
    most = (NAME_BYTES - len("hostile.test") - 2) // 2
    refused(rows, room, "a chain of $ORIGIN up to a name that is too long", HEAD + "$ORIGIN a\n" * 100_000, f"{of} {3 + most + 1}: syntax")
    refused(rows, room, "a label of 64 bytes", HEAD + "l" * 64 + " A 192.0.2.2\n", f"{of} 4: syntax")
    refused(rows, room, "a name of 256 bytes", HEAD + long_name(256) + " A 192.0.2.2\n", f"{of} 4: syntax")
    refused(rows, room, "a file that includes itself", HEAD + "$INCLUDE db\n", f"{of} 4: control")
    refused(rows, room, "100,001 records", "@ 60 IN SOA ns admin 1 7200 3600 1209600 60\n" + many(100_000), "too many zone records: 100001")
    refused(rows, room, "no SOA in 1 MiB of records", many(100_000), f"{of} 100000: nosoa")


def many(count):
    """NS records of one owner, each with another host of four letters."""
    return "@ NS aaaa\n" + "".join(f"\tNS {digits(number, 4)}\n" for number in range(1, count))


def shared(count):
    """So many cuts, each with the same 32 hosts of 32 addresses."""
    hosts = "".join(f"h{host:02}" + "".join(f"\tA 10.{host}.0.{number}\n" for number in range(32)) for host in range(32))
    return hosts + "".join(f"cut{number}" + "".join(f"\tNS h{host:02}\n" for host in range(32)) for number in range(count))


def far_below(count):
    """So many cuts of one label below 110 labels, each with a host that has all of them too."""
    return "$ORIGIN " + "b." * 110 + "hostile.test.\n" + "".join(f"{digits(number, 3)} 60 NS {digits(number, 3)}\n" for number in range(count))


def scattered(count, kind):
    """So many names with records of a type, each with 32 hosts, which each have 55 labels of their own."""
    origins = (".".join(digits(host * 55 + label, 3) for label in range(55)) for host in range(32))
    cuts = "".join(f"cut{number}.hostile.test. 60 {kind} h\n" for number in range(count))
    return "".join(f"$ORIGIN {origin}.hostile.test.\n{cuts}" for origin in origins)


def zones(rows, room):
    label = "l" * 63
    served(rows, room, "a label of 63 bytes is one", HEAD + label + " 60 A 192.0.2.2\n",
           (f"{label}.hostile.test", "A", ["NOERROR", f"answer {label}.hostile.test. 60 IN A 192.0.2.2"]))
    name = long_name(255)
    served(rows, room, "a name of 255 bytes is one", HEAD + name + " 60 A 192.0.2.2\n",
           (name, "A", ["NOERROR", f"answer {name} 60 IN A 192.0.2.2"]))
    deep = ".".join(["a"] * 120) + ".hostile.test."
    served(rows, room, "a name of 122 labels is one, and has names above it", HEAD + deep + " 60 A 192.0.2.2\n",
           (deep, "A", ["NOERROR", f"answer {deep} 60 IN A 192.0.2.2"]), ("a.a.a.hostile.test", "A", ["NOERROR"]))
    loop = "".join(f"c{number} 60 CNAME c{(number + 1) % 20_000}\n" for number in range(20_000))
    follow = [f"answer c{number}.hostile.test. 60 IN CNAME c{number + 1}.hostile.test." for number in range(9)]
    served(rows, room, "a circle of 20,000 aliases ends behind the eighth that is followed", HEAD + loop, ("c0.hostile.test", "A", ["NOERROR", *follow]))
    served(rows, room, "an alias of itself", HEAD + "self 60 CNAME self\n",
           ("self.hostile.test", "A", ["NOERROR"] + ["answer self.hostile.test. 60 IN CNAME self.hostile.test."] * 9))
    served(rows, room, "a wildcard below a cut answers nothing", HEAD + "cut NS ns.elsewhere.example.\n*.cut A 192.0.2.2\n*.x.cut A 192.0.2.2\n",
           ("y.cut.hostile.test", "A", ["NOERROR"]), ("y.x.cut.hostile.test", "A", ["NOERROR"]))
    stars = "*.*.* 60 A 192.0.2.2\n"
    # Below the zone `*` exists without records, so that it denies what it stands for by NOERROR (RFC 4592, sections 2.2.2 and 3.3.1).
    served(rows, room, "of several asterisks the first alone is a wildcard", HEAD + stars,
           ("b.*.*.hostile.test", "A", ["NOERROR", "answer b.*.*.hostile.test. 60 IN A 192.0.2.2"]), ("b.c.d.hostile.test", "A", ["NOERROR"]))
    text = HEAD + "a 60 TXT ( \n" + '"x"\n' * 200 + ")\n"
    served(rows, room, "a record of 200 lines is one", text, ("a.hostile.test", "TXT", ["NOERROR", "answer a.hostile.test. 60 IN TXT " + " ".join(['"x"'] * 200)]))
    served(rows, room, "2,000 cuts whose 32 hosts have 32 addresses each don't take memory by the product", HEAD + shared(2_000),
           ("x.cut0.hostile.test", "A", ["NOERROR"]), ("x.cut1999.hostile.test", "A", ["NOERROR"]), ("h31.hostile.test", "A",
           ["NOERROR"] + [f"answer h31.hostile.test. 60 IN A 10.31.0.{number}" for number in range(32)]), most=128)
    served(rows, room, "40,000 cuts below 110 labels don't take memory by their labels", HEAD + far_below(40_000), ("x.hostile.test", "A", ["NXDOMAIN"]),
           ("x.aaa." + "b." * 110 + "hostile.test", "A", ["NOERROR"]), most=128)
    own = HEAD + scattered(800, "NS")
    served(rows, room, "800 cuts whose 32 hosts have labels of their own", own,
           ("x.cut0.hostile.test", "A", ["NOERROR"]), ("x.cut799.hostile.test", "A", ["NOERROR"]), most=128)
    as_cheap(rows, room, "they take no more than five times the time of as many records that are no cuts", own, HEAD + scattered(800, "PTR"), 5)
    # As many records as a zone may have: the SOA, an address, and 99,998 NS.
    full = "@ 60 IN SOA ns admin 1 7200 3600 1209600 60\nx 60 A 192.0.2.2\n" + many(99_998)
    served(rows, room, "a zone of 100,000 records", full, ("x.hostile.test", "A", ["NOERROR", "answer x.hostile.test. 60 IN A 192.0.2.2"]))


def main():
    needs_program()
    rows = Rows()
    with tempfile.TemporaryDirectory() as room:
        faults(rows, room)
        zones(rows, room)
    rows.end()


if __name__ == "__main__":
    main()
