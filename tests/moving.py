"""docs/FROM-COREDNS.md beside the program: each line of its table is taken or refused as it says, and its five Corefiles are those of the scenarios."""
import os
import re
import subprocess
import sys
import tempfile
from concurrent.futures import ThreadPoolExecutor

sys.path.insert(0, os.path.join(os.path.dirname(os.path.abspath(__file__)), "lib"))
from program import TOP, Rows, corefile, needs_program  # noqa: E402

PAGE = os.path.join(TOP, "docs", "FROM-COREDNS.md")
TOOL = os.path.join(TOP, "tools", "check-corefile")
FILES = [("db.example.org", "@ 60 IN SOA ns admin 1 2 3 4 5\n"), ("hosts.lan", "192.0.2.7 nas.lan\n")]
NO_PLACE, BLOCKS, AT_ONCE = 7, 12, 4
FIVE = {"A cluster's default": "cluster", "A home network with an ad list": "home", "Split horizon": "split",
        "An internal zone with a forward": "internal", "A cache in front of two resolvers": "cache"}


def texts(cell):
    """The texts of a cell: each is a list of lines, which ` / ` parts."""
    return [re.findall(r"`([^`]*)`", part) for part in cell.split(", ") if part.startswith("`")]


def table(page):
    """The rows of the table of directives: the texts of CoreDNS, what becomes of them, and what to write."""
    part = page.partition("\n## Directive by directive\n")[2].partition("\n## ")[0]
    lines = [line for line in part.splitlines() if line.startswith("| `")]
    return [[cell.strip() for cell in line.strip("|").split(" | ")] for line in (line[:-1] + " |" for line in lines)]


def checked(bodies):
    """What check-corefile tells of the texts, each in a block of its own: for each that isn't accepted, what is told in it; other lines are -1's."""
    told = {}
    with ThreadPoolExecutor(AT_ONCE) as pool:
        for found in pool.map(lambda at: checked_blocks(bodies, at), range(0, len(bodies), BLOCKS)):
            for n, text in found:
                told.setdefault(n, []).append(text)
    return told


def checked_blocks(bodies, start):
    """The same for so many from there on, a text of each line."""
    lines, where = [], {}
    for n, body in enumerate(bodies[start:start + BLOCKS], start):
        lines.append(f"z{n}.example {{")
        for line in body:
            lines.append("    " + line)
            where[len(lines)] = n
        lines.append("}")
    with tempfile.TemporaryDirectory() as room:
        for name, text in FILES:
            with open(os.path.join(room, name), "w") as file:
                file.write(text)
        corefile(room, "\n".join(lines) + "\n")
        said = subprocess.run([TOOL, "Corefile"], cwd=room, capture_output=True, text=True, timeout=120).stdout
    found = [(where.get(int(number), -1), text) for number, text in re.findall(r"(?m)^Corefile:(\d+): (?!warning)(.*)$", said)]
    return found or ([] if "Corefile: accepted" in said else [(-1, said)])


def take_table(rows, page):
    found = table(page)
    rows.row("FROM-COREDNS.md has a table of directives", len(found) > 50, len(found))
    bodies, wants, names = [], [], []
    for cells in found:
        want = re.sub("`", "", cells[1])
        for body in texts(cells[0]):
            bodies.append(body)
            wants.append([] if want in ("taken", "otherwise", "no effect") else [want])
            names.append(" / ".join(body))
    told = checked(bodies)
    for n, (name, want) in enumerate(zip(names, wants)):
        rows.equal(f"FROM-COREDNS.md: {name} is {want[0] if want else 'taken'}", told.get(n, [])[:1], want)
    rows.equal("FROM-COREDNS.md: no other line is told", told.get(-1, []), [])
    instead = [body for cells in found for body in (texts(cells[2])[:1] if len(cells) > 2 and cells[2].startswith("`") else [])
               if not body[0].startswith("--")]
    rows.equal("FROM-COREDNS.md: what it says to write is taken", {" / ".join(instead[n]) if n >= 0 else n: text for n, text in checked(instead).items()}, {})


def scenario_text(name, step):
    """The text below a step of a scenario, as the page would have it."""
    with open(os.path.join(TOP, "tests", "scenarios", f"moved-{name}.scenario")) as file:
        text = file.read()
    body = re.search(rf"(?m)^{step}\n((?:(?:    .*)?\n)*)", text)
    if body is None:
        return None
    body = re.sub(r"(?m)^    ", "", body[1]).strip("\n")
    for here, there in (("{dir}", "/etc/dnschain"), ("{port2}", "5301"), ("{port}", "53"), ("127.0.0.0/16", "10.0.0.0/8"),
                        ("127.0.0.1:{near} 127.0.0.1:{far}", "10.0.0.2 10.0.0.3"), ("127.0.0.1:{one} 127.0.0.1:{one}", "192.0.2.1 192.0.2.2")):
        body = body.replace(here, there)
    return body


def take_five(rows, page, room):
    part = page.partition("\n## Five Corefiles\n")[2].partition("\n## ")[0]
    for title, name in FIVE.items():
        blocks = re.findall(r"```text\n(.*?)\n```", part.partition(f"\n### {title}\n")[2].partition("\n### ")[0], re.S)
        rows.row(f"{title}: the page has its Corefile, and what is said of it", len(blocks) >= 2, len(blocks))
        rows.equal(f"{title}: the scenario has the same Corefile", scenario_text(name, "file original"), blocks[0])
        ported = scenario_text(name, "corefile")
        rows.equal(f"{title}: and the same one behind the move", ported, blocks[2] if ported is not None else None)
        corefile(room, blocks[0] + "\n")
        said = subprocess.run([TOOL, "Corefile"], cwd=room, capture_output=True, text=True, timeout=120)
        rows.equal(f"{title}: check-corefile says what the page shows", (said.returncode, said.stdout), (1, blocks[1] + "\n"))


def main():
    needs_program()
    rows = Rows()
    with open(PAGE, encoding="utf-8") as file:
        page = file.read()
    with tempfile.TemporaryDirectory() as room:
        corefile(room, "")
        if subprocess.run([TOOL, "Corefile"], cwd=room, capture_output=True).returncode == NO_PLACE:
            print("skipped: no network of its own can be made here")
            return
        take_five(rows, page, room)
    take_table(rows, page)
    rows.end()


if __name__ == "__main__":
    main()
