"""Patterns of `template` and `rewrite`: such as somebody wrote to harm, in bounded time, and what patterns find beside Python's `re`.

What is expected follows from the rules of the pages of both plugins, or is what `re` says; never what the program said.
"""
import os
import random
import re
import subprocess
import sys
import tempfile

sys.path.insert(0, os.path.join(os.path.dirname(os.path.abspath(__file__)), "lib"))
from message import query_bytes, reply_lines  # noqa: E402
from program import PROGRAM, Client, Rows, Served, needs_program  # noqa: E402

SECONDS = 120
# Behind the pattern in line 3 stands a directive that is unknown, so that a run ends whatever becomes of the pattern.
TEMPLATE = ".:5300 {\n\ttemplate IN A {\n\t\tmatch %s\n\t}\n\tnothing\n}\n"
REWRITE = ".:5300 {\n\trewrite {\n\t\tname regex %s x\n\t}\n\tnothing\n}\n"
GOOD, BAD, LARGE = (f"corefile line {text}" for text in ("5: unknown directive", "3: directive: pattern", "3: directive: patternsize"))
PROBE = query_bytes(["probe.invalid", "A"])

# Names of 255 bytes in wire format: labels of 63 and 61 bytes, 127 labels, and labels of odd bytes.
LONG = ".".join(["a" * 63] * 3 + ["a" * 61])
DEEP = ".".join(["a"] * 127)
ODD = ".".join(["*-_" * 21] * 3 + ["*-_" * 20 + "*"])
# Patterns for which a search that doesn't keep where it was would have no end, or that have thousands of states. None is found in these
# names, nor in those of the last queries.
HOSTILE = [
    "(a*)*b", "(a*)*(a*)*(a*)*b", "^(a|a)*b", "(a|aa)+b", "([a.]*)*([a.]*)*b", "(.*)*(.*)*(.*)*b", "(a?){60}a{60}b",
    "((a?){50}){50}b", "([a.]?){2000}b", "([a.]|a.|.a){700}b", "(.*a){20}b", "(.*)(.*)(.*)(.*)(.*)(.*)(.*)(.*)b",
    "(x+x+)+y", "^(([a-z])+.)+[A-Z]([a-z])+$", "(a{1,60}){1,60}b", "(((((a*)*)*)*)*)*b",
]
JUDGED = [
    ("a million by three counts within one another", "((a{1,100}){1,100}){1,100}", [LARGE]),
    ("a million by two counts", "(?:a{1000}){1000}", [LARGE]),
    ("four counts of a thousand", "(((a{1000}){1000}){1000}){1000}", [LARGE]),
    ("250 groups within one another", "(" * 250 + "a" + ")" * 250, [GOOD]),
    ("251 groups within one another", "(" * 251 + "a" + ")" * 251, [BAD]),
    ("50,000 groups within one another", "(" * 50_000 + "a" + ")" * 50_000, [BAD]),
    ("100,000 opening parentheses", "(" * 100_000, [BAD]),
    ("100,000 closing parentheses", ")" * 100_000, [BAD]),
    ("100,000 opening brackets", "[" * 100_000, [BAD]),
    ("100,000 question marks behind a letter", "a" + "?" * 100_000, [GOOD, BAD]),
    ("a count that is no number of 32 bits", "a{4294967296}", [BAD]),
    ("a count of a hundred thousand digits", "a{" + "9" * 100_000 + "}", [BAD]),
    ("a count whose end is before its beginning", "a{2,1}", [BAD]),
    ("100,000 alternatives", "|".join(["a"] * 100_000), [GOOD, LARGE]),
    ("100,000 letters", "a" * 100_000, [GOOD, LARGE]),
    ("a thousand classes of all letters", r"\pL" * 1000, [GOOD, LARGE]),
    ("a count of classes of all letters", r"\w{1000}", [GOOD, LARGE]),
    ("a look ahead", "(?=a)", [BAD]),
    ("a group by its number", r"(a)\1", [BAD]),
    *((text, text, [GOOD]) for text in HOSTILE),
]


def word(text):
    """A word of a Corefile."""
    return '"' + text.replace('"', '\\"') + '"'


def words(texts):
    return " ".join(map(word, texts))


def block(*directives):
    """A Corefile of one block, whose directives are lists of lines."""
    return ".:{port} {\n" + "".join(f"\t{line}\n" for lines in directives for line in lines) + "}\n"


def template(kind, patterns, *texts, zone=""):
    match = ["\tmatch " + words(patterns)] if patterns else []
    return [f"template IN {kind} {zone} {{", *match, *("\tanswer " + word(text) for text in texts), "}"]


def judged(room, corefile):
    """The one line of a run that ends by itself."""
    conf = os.path.join(room, "Corefile")
    with open(conf, "w") as file:
        file.write(corefile)
    try:
        return subprocess.run([PROGRAM, "serve", "--conf", conf], capture_output=True, timeout=SECONDS).stdout.decode().strip()
    except subprocess.TimeoutExpired:
        return "no end in time"


def refused(rows, room):
    """Rows: what becomes of a pattern, of `template` and of `rewrite`."""
    for title, pattern, said in JUDGED:
        got = [judged(room, text % word(pattern)) for text in (TEMPLATE, REWRITE)]
        rows.row(f"{title}: {' or '.join(line.split(': ', 1)[1] for line in said)}", got[0] in said and got[0] == got[1], got)


def answers(port, name, kind="A"):
    """What a query by UDP gets in time: the RCODE, and the records of all sections."""
    with Client(port) as client:
        reply = client.ask(query_bytes([name, kind, "bufsize=4096"]), SECONDS)
    lines = reply_lines(reply) if reply else ["silence"]
    return [lines[0].split(" ")[0], *(line for line in lines[1:] if not line.startswith(("question ", "opt ")))]


def addresses(name, ttls):
    return ["NOERROR", *(f"answer {name}. {ttl} IN A 10.0.0.1" for ttl in ttls)]


def served(rows, title, corefile, *asked):
    """Rows: each name gets these lines in time."""
    with Served(corefile) as server:
        if not server.is_serving(PROBE, SECONDS):
            rows.row(f"{title}: the server stands", False, server.process.poll())
            return
        for what, name, kind, lines in asked:
            rows.equal(f"{title}: {what}", answers(server.port, name, kind), lines)


def searched(rows):
    """Rows: long names against hostile patterns, as many as there may be, and against such with more states than a search keeps room for."""
    address = "{{ .Name }} 60 IN A 10.0.0.1"
    found = ("a name that the last one matches", "ok.test", "A", addresses("ok.test", [60]))
    named = [("a name of 255 bytes", LONG), ("one of 127 labels", DEEP), ("one of odd bytes", ODD)]
    names = [(what, name, "A", ["SERVFAIL"]) for what, name in named]
    many = [HOSTILE[number % len(HOSTILE)] for number in range(63)]
    served(rows, "64 patterns", block(template("A", [*many, "^ok\\."], address)), *names, found)
    large = ["([a.]?){%d}b" % count for count in (1000, 3000, 5000)]
    served(rows, "patterns of up to 10,000 states", block(template("A", [*large, "^ok\\."], address)), *names[:2], found)


def restored(rows):
    """Rows: rules with hostile patterns, on a long name and on long owners."""
    rules = [f"rewrite name regex {word(pattern)} hostile.test" for pattern in HOSTILE]
    owners = [f"\tanswer name {word(pattern)} hostile.test" for pattern in HOSTILE[:8]]
    back = ["rewrite {", f"\tname exact many.test {LONG}", *owners, "\tanswer auto", "}"]
    longer = ["rewrite name substring a " + "a" * 60]
    made = template("A", [], *("{{ .Name }} %d IN A 10.0.0.1" % ttl for ttl in range(8)))
    served(
        rows, "rules", block(rules, back, longer, made),
        ("a name of 255 bytes in which none is found, and which the last rule would make too long", LONG, "A", addresses(LONG, range(8))),
        ("eight owners of 255 bytes, for eight patterns each", "many.test", "A", addresses("many.test", range(8))),
        ("a label that would get 121 bytes", "xaa.test", "TXT", ["SERVFAIL"]),
    )


def filled(rows):
    """Rows: a text that makes a large record of a long name, and none where its data would have more than 65,535 bytes."""
    text = "{{ .Name }} 60 IN TXT" + ' "{{ .Name }}"' * 300
    served(
        rows, "a text with 301 places", block(template("TXT", [], text)),
        ("data of 76,500 bytes are no record's", LONG, "TXT", ["SERVFAIL"]),
        ("a short name", "a.b", "TXT", ["NOERROR", "answer a.b. 60 IN TXT " + " ".join(['"a.b."'] * 300)]),
    )


def part(made, deep):
    """A pattern in which nothing but a letter, a dot or any byte is repeated, so that all engines agree on what its groups span."""
    branches = []
    for _ in range(made.choice([1, 1, 2, 3])):
        items = []
        for _ in range(made.randrange(1, 5)):
            if deep and made.random() < 0.3:
                items.append(f"({part(made, deep - 1)})" + made.choice(["", "", "?", "??"]))
            else:
                atom = made.choice(["a", "b", "ab", ".", r"\.", "[ab]", "[^a]", "(?:a|ab)"])
                items.append(atom + made.choice(["", "", "", "*", "+?", "?", "{1,2}"]))
        branches.append("".join(items))
    return "|".join(branches)


def name_below(made, zone):
    """A random name in a zone."""
    front = re.sub(r"\.+", ".", "".join(made.choice("aab.") for _ in range(made.randrange(1, 9)))).strip(".")
    return f"{front}.{zone}." if front else f"{zone}."


def found_by_re(pattern, name):
    """What a template with the pattern answers, whose text has groups 0 to 3."""
    found = re.search(pattern, name)
    if not found:
        return ["SERVFAIL"]
    groups = [found.group(number) or "" if number <= found.re.groups else "" for number in range(4)]
    return ["NOERROR", f"answer {name} 60 IN TXT " + " ".join(f'"{group}"' for group in groups)]


def beside_re(rows):
    """A row: groups 0 to 3 of random patterns in random names, beside `re`."""
    made = random.Random(1)
    text = "{{ .Name }} 60 IN TXT " + " ".join('"{{ index .Match %d }}"' % group for group in range(4))
    compared, unlike = 0, []
    for _ in range(4):
        patterns = [made.choice(["", "^"]) + part(made, 2) + made.choice(["", r"\.k"]) for _ in range(60)]
        with Served(block(*(template("TXT", [pattern], text, zone=f"k{number}.test") for number, pattern in enumerate(patterns)))) as server:
            if not server.is_serving(PROBE, SECONDS):
                rows.row("random patterns: the server stands", False, server.process.poll())
                return
            for number, pattern in enumerate(patterns):
                for name in [name_below(made, f"k{number}.test") for _ in range(10)]:
                    got, want = answers(server.port, name, "TXT"), found_by_re(pattern, name)
                    compared += 1
                    unlike.extend([(pattern, name, got, want)] if got != want else [])
    rows.row(f"{compared} names in random patterns: groups as Python's re has them", compared == 2400 and not unlike, (len(unlike), unlike[:3]))


def is_pattern(text):
    try:
        re.compile(text)
        return True
    except re.error:
        return False


def texts_beside_re(rows, room):
    """A row: which random texts are patterns, beside `re`. Two repeats in a row, which `re` alone refuses, are left out."""
    made = random.Random(2)
    unlike, counts = [], {True: 0, False: 0}
    while sum(counts.values()) < 120:
        text = "".join(made.choice("aabb()|*.?") for _ in range(made.randrange(1, 9)))
        if re.search(r"[*?][*?]|\(\?", text) or counts[is_pattern(text)] >= 60:
            continue
        counts[is_pattern(text)] += 1
        got, want = judged(room, TEMPLATE % word(text)), GOOD if is_pattern(text) else BAD
        unlike.extend([(text, got, want)] if got != want else [])
    rows.row("120 random texts: half are patterns, those that Python's re takes", not unlike, (len(unlike), unlike[:3]))


def main():
    needs_program()
    rows = Rows()
    with tempfile.TemporaryDirectory() as room:
        refused(rows, room)
        texts_beside_re(rows, room)
    searched(rows)
    restored(rows)
    filled(rows)
    beside_re(rows)
    rows.end()


if __name__ == "__main__":
    main()
