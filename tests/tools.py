"""tools/check-corefile over the built program: that what it shows and its statuses are the program's. The widths and drawings of the repository."""
import os
import subprocess
import sys
import tempfile

sys.path.insert(0, os.path.join(os.path.dirname(os.path.abspath(__file__)), "lib"))
from program import Rows, TOP, corefile, free_port, needs_program  # noqa: E402

TOOL = os.path.join(TOP, "tools", "check-corefile")
NO_PLACE = 7
OWNERS = "the owners of the answer stay those of the new name: answer auto restores them"

# A Corefile, the status, and the lines, of which the page to read is left out.
CASES = [
    ("one that serves", ".:{port} {\n    reload\n    whoami\n}\n", 0, ["{file}: accepted"]),
    ("one without a block", "# nothing\n", 0, ["{file}: accepted"]),
    ("an unknown directive", ".:{port} {\n    whoamy\n}\n", 1, ["{file}:2: unknown directive", "        whoamy"]),
    (
        "hosts that lets nothing go on", ".:{port} {\n    hosts {file}\n    whoami\n}\n", 0,
        ["{file}: accepted", "{file}:2: warning: a name that hosts doesn't list gets SERVFAIL and never reaches whoami: fallthrough lets it go on"],
    ),
    (
        "hosts with an address for its file", ".:{port} {\n    hosts 10.0.0.1 a.test {\n        fallthrough\n    }\n    whoami\n}\n", 0,
        ["{file}: accepted", "{file}:2: warning: 10.0.0.1 is read as the name of a file: an address stands in the body"],
    ),
    (
        "hosts without its file", ".:{port} {\n    hosts /none/h {\n        fallthrough\n    }\n}\n", 0,
        ["{file}: accepted", "{file}:2: warning: there is no /none/h, which counts as empty"],
    ),
    (
        "template that lets nothing go on",
        ".:{port} {\n    template IN A {\n        match ^a\\.\n    }\n    template IN TXT a.test {\n        match ^b\n    }\n    whoami\n}\n", 0,
        ["{file}: accepted",
         "{file}:2: warning: a name of type A in which no pattern is found gets SERVFAIL and never reaches whoami: fallthrough lets it go on"],
    ),
    (
        "patterns that find no name",
        ".:{port} {\n    template IN A {\n        match ^a\\.org$ ^B\\. \\D[A-Z]$ \\pL(?i)C \\x2E\\PL$ \\D$\n        fallthrough\n    }\n    whoami\n}\n", 0,
        ["{file}: accepted", "{file}:3: warning: ^a\\.org$ finds no name: a name ends in a dot, \\.$",
         "{file}:3: warning: ^B\\. finds no name: names are in small letters"],
    ),
    (
        "rules that leave the owners",
        ".:{port} {\n    rewrite name a.test b.test\n    rewrite name regex ^c\\.(.*)\\.$ {1} answer auto\n"
        "    rewrite {\n        name d.test e.test\n        answer value d e\n    }\n"
        "    rewrite stop {\n        name f.test g.test\n        answer name ^g g.f.test\n    }\n    rewrite type A TXT\n}\n", 0,
        ["{file}: accepted", "{file}:2: warning: " + OWNERS, "{file}:4: warning: " + OWNERS],
    ),
    (
        "a match word with one word", ".:{port} {\n    rewrite name suffix a.test\n    rewrite ttl exact 5\n}\n", 0,
        ["{file}: accepted", "{file}:2: warning: suffix is read as the name, since one word stands behind it", "{file}:2: warning: " + OWNERS,
         "{file}:3: warning: exact is read as the name, since one word stands behind it"],
    ),
    (
        "a pattern that is none", ".:{port} {\n    template IN A {\n        match (\n    }\n}\n", 1,
        ["{file}:3: directive: pattern", "            match ("],
    ),
    (
        "all lines that would be refused, at once",
        "(common) {\n    errors {\n        stacktrace\n    }\n    bogus\n    import deeper\n}\n(deeper) {\n    chaos 1 {\n        x\n    }\n}\n"
        ".:{port} {\n    import common\n    acl {\n        block type HTTPS\n    }\n    hosts {\n        10.0.0.1 a..b\n        reload 5s\n"
        "        fallthrough\n    }\n    whoami 1\n    forward . 192.0.2.1 {\n        except a..test\n    }\n}\ntls://a.test {\n    file /none/z {\n"
        "        reload 1s\n    }\n}\nb.test\n{\n}\nc.test {\n    log {\n        class {\n        }\n    }\n    import a b\n}\n", 1,
        ["{file}:28: block: scheme", "    tls://a.test {", "{file}:33: block: outside", "    b.test", "{file}:34: block: nokey", "    {",
         "{file}:38: block: deepbrace", "            class {", "{file}:41: block: importargs", "        import a b",
         "{file}:2: directive: args", "        errors {", "    imported at {file}:14", "{file}:5: unknown directive", "        bogus", "    imported at {file}:14",
         "{file}:9: unknown directive", "        chaos 1 {", "    imported at {file}:14", "{file}:16: directive: kind", "            block type HTTPS",
         "{file}:19: directive: zone", "            10.0.0.1 a..b", "{file}:20: directive: net", "            reload 5s",
         "{file}:23: directive: args", "        whoami 1", "{file}:25: directive: zone", "            except a..test",
         "{file}:30: directive: option", "            reload 1s", "{file}:29: directive: nofile", "        file /none/z {"],
    ),
    (
        "a block that is never closed", ".:{port} {\n    whoamy\n", 1, ["{file}:1: block: openblock", "    .:{port} {"],
    ),
    (
        "a policy whose only line is refused", ".:{port} {\n    acl {\n        block type HTTPS\n    }\n    whoami\n}\n", 1,
        ["{file}:3: directive: kind", "            block type HTTPS"],
    ),
    ("an open quote", '.:{port} {\n    whoami\n}\n"a\n', 1, ["{file}:4: open quote", '    "a']),
]


def checked(path):
    ran = subprocess.run([TOOL, path], capture_output=True, text=True, timeout=60)
    return ran.returncode, [line for line in ran.stdout.split("\n")[:-1] if not line.startswith("see docs/")]


def drawings(rows):
    """The drawings that README and bench/README.md show are those of their texts and values."""
    for title, words in [("docs/drawings", [os.path.join(TOP, "tools", "draw"), "check"]), ("bench/beside.svg", [sys.executable, os.path.join(TOP, "bench", "plot.py"), "check"])]:
        ran = subprocess.run(words, capture_output=True, text=True, timeout=60)
        rows.equal(f"{title}: drawn from what it shows", (ran.returncode, ran.stdout), (0, ""))


def page_commands():
    """The commands of docs/TESTING.md that print nothing where no line is too wide and nothing takes too many arguments."""
    with open(os.path.join(TOP, "docs", "TESTING.md"), encoding="utf-8") as file:
        section = file.read().partition("\n## Widths and arguments\n")[2].partition("\n## ")[0]
    block = section.partition("```text\n")[2].partition("```")[0]
    return ["\n".join(lines.splitlines()) for lines in ("\n" + block).split("\n$ ")[1:]]


def widths(rows):
    commands = page_commands()
    rows.equal("docs/TESTING.md has its commands of widths and arguments", len(commands), 4)
    for command in commands:
        done = subprocess.run(["bash", "-c", command], cwd=TOP, capture_output=True, text=True, env={**os.environ, "LC_ALL": "C.UTF-8"})
        rows.equal(f"{command.splitlines()[0][:60]} .. prints nothing", done.stdout + done.stderr, "")


def main():
    needs_program()
    rows = Rows()
    drawings(rows)
    widths(rows)
    with tempfile.TemporaryDirectory() as room:
        if checked(corefile(room, ""))[0] == NO_PLACE:
            print("skipped: no network of its own can be made here")
            return
        for title, text, status, lines in CASES:
            text = text.replace("{port}", str(free_port())).replace("{file}", os.path.join(room, "Corefile"))
            path = corefile(room, text)
            got = checked(path)
            port = text.partition(":")[2].partition(" ")[0]
            rows.equal(f"check-corefile: {title}", got, (status, [line.replace("{file}", path).replace("{port}", port) for line in lines]))
        got = checked(os.path.join(room, "none"))
        rows.equal("check-corefile: no file", got, (1, ["no corefile"]))
    rows.end()


if __name__ == "__main__":
    main()
