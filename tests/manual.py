"""The manual pages and bash's completion: that they are whole, and say each option, status, line and limit that the docs say."""
import os
import re
import shutil
import subprocess
import sys
import tempfile

sys.path.insert(0, os.path.join(os.path.dirname(os.path.abspath(__file__)), "lib"))
from program import TOP, Rows, needs_program, status_of  # noqa: E402

COMPLETION = os.path.join(TOP, "packaging", "completion.bash")
# The words to complete, the last one begun, and what is offered.
COMPLETIONS = [
    (["dnschain", ""], ["load", "serve"]),
    (["dnschain", "load", ""], []),
    (["dnschain", "serve", "--"], ["--conf", "--port", "--workers", "--queries"]),
    (["dnschain", "serve", "--conf", "x", "--w"], ["--workers"]),
    (["dnschain", "serve", "--conf", "x", "--conf"], []),
    (["dnschain", "serve", "--workers", "1"], ["1", "10", "11", "12", "13", "14", "15", "16"]),
    (["dnschain", "serve", "--workers", "=", "16"], ["16"]),
    (["dnschain", "serve", "--conf", "Core"], ["Corefile"]),
    (["dnschain", "serve", "--port", ""], []),
]


def squeezed(text):
    """A text without blanks, so that it is the same wherever its lines end."""
    return "".join(text.split())


def page(folder, name):
    """What a reader sees of a page."""
    shown = subprocess.run(["mandoc", "-Tutf8", os.path.join(folder, name)], capture_output=True, text=True, check=True).stdout
    return squeezed(re.sub(".\b", "", shown))


def read(name):
    with open(os.path.join(TOP, name), encoding="utf-8") as file:
        return file.read()


def rows_of(text):
    """The rows of all tables of a page of docs/, without their heads, as lists of cells in plain text."""
    tables = re.findall(r"(?m)^\|.*\n\|[-|]+\n((?:\|.*\n)+)", text)
    lines = [line for table in tables for line in table.splitlines()]
    return [[plain(cell) for cell in re.split(r"(?<!\\)\|", line.strip("|"))] for line in lines]


def plain(cell):
    """A cell without its marks, and without names of pages, which the manual calls otherwise."""
    cell = re.sub(r"\[([^\]]+)\]\([^)]*\)", r"\1", cell).replace("`", "").replace("**", "").replace("\\|", "|")
    return squeezed(re.split(r"README\.md|docs/|\w+\.md", cell)[0])


def take_pages(rows, folder):
    made = subprocess.run([os.path.join(TOP, "packaging", "manual"), folder], capture_output=True, text=True)
    rows.equal("manual: the pages are made", (made.returncode, sorted(os.listdir(folder))), (0, ["dnschain-corefile.5", "dnschain.8"]))
    if shutil.which("mandoc") is None:
        print("skipped the manual pages: there is no mandoc")
        return
    for name in ("dnschain.8", "dnschain-corefile.5"):
        said = subprocess.run(["mandoc", "-Tlint", os.path.join(folder, name)], capture_output=True, text=True).stdout
        rows.equal(f"{name}: mandoc finds nothing", said, "")
    server, corefile = page(folder, "dnschain.8"), page(folder, "dnschain-corefile.5")
    running = read("README.md").partition("\n## Running it\n")[2].partition("\n## ")[0]
    options = [cells for cells in rows_of(running) if cells[0].startswith("--")]
    statuses = [cells for cells in rows_of(running) if cells[0].isdigit()]
    rows.row("README.md has the options and the statuses", len(options) >= 3 and len(statuses) >= 6, (options, statuses))
    tables = [("options", options, server), ("statuses", statuses, server), ("lines", rows_of(read("docs/MESSAGES.md")), server),
              ("bounds of TCP", rows_of(read("docs/OPERATIONS.md")), server), ("language and limits", rows_of(read("docs/COREFILE.md")), corefile)]
    for name in sorted(os.listdir(os.path.join(TOP, "docs", "plugins"))):
        tables.append((name, rows_of(read(os.path.join("docs", "plugins", name))), corefile))
    for what, found, where in tables:
        rows.equal(f"manual: it has the {what} as the docs do", [cell for cells in found for cell in cells if cell not in where], [])
    usage = status_of()[1].decode()
    rows.equal("manual: its options are those of the program's own line", sorted(set(re.findall(r"--\w+", usage))), sorted({"--conf", *(cells[0] for cells in options)}))
    rows.equal("manual: each option of the program is in its synopsis", [word for word in re.findall(r"\[?--\w+ \w+\]?", usage) if squeezed(word) not in server], [])


def offered(words, folder):
    """What the completion offers behind these words."""
    script = f'. "{COMPLETION}"; COMP_WORDS=("$@"); COMP_CWORD=$(($# - 1)); _dnschain; printf "%s\\n" "${{COMPREPLY[@]}}"'
    ran = subprocess.run(["bash", "--norc", "-c", script, "bash", *words], capture_output=True, text=True, cwd=folder)
    return [line for line in ran.stdout.split("\n") if line] + ran.stderr.splitlines()


def take_completion(rows, folder):
    if shutil.which("bash") is None:
        print("skipped the completion: there is no bash")
        return
    with open(os.path.join(folder, "Corefile"), "w"):
        pass
    for words, want in COMPLETIONS:
        rows.equal(f"completion: {' '.join(words)}", offered(words, folder), want)
    usage = status_of()[1].decode()
    rows.equal("completion: it offers the program's own options", sorted(offered(["dnschain", "serve", "--"], folder)), sorted(set(re.findall(r"--\w+", usage))))


def take_runbook(rows):
    """Each line that MESSAGES.md tells of has its row in the runbook, and the runbook no other."""
    tables = re.findall(r"(?m)^\| Line \|.*\n((?:\|.*\n)+)", read("docs/MESSAGES.md"))
    lines = re.findall(r"(?m)^\| `([^`|]+)` \|", "".join(tables))
    runbook = re.findall(r"(?m)^\| `([^`|]+)` \|", read("docs/OPERATIONS.md").partition("\n## Runbook\n")[2])
    rows.equal("runbook: it has each line of MESSAGES.md, and no other", runbook, lines)


def main():
    needs_program()
    rows = Rows()
    take_runbook(rows)
    with tempfile.TemporaryDirectory() as folder:
        take_pages(rows, folder)
    with tempfile.TemporaryDirectory() as folder:
        take_completion(rows, folder)
    if shutil.which("shellcheck") is None:
        print("skipped the shell scripts: there is no shellcheck")
    else:
        scripts = [os.path.join(TOP, "packaging", name) for name in ("build-deb", "container-files", "deb/postinst", "deb/prerm", "deb/postrm")]
        scripts.append(os.path.join(TOP, "tools", "check-corefile"))
        said = subprocess.run(["shellcheck", *scripts], capture_output=True, text=True).stdout
        said += subprocess.run(["shellcheck", "-s", "bash", COMPLETION], capture_output=True, text=True).stdout
        rows.equal("shellcheck finds nothing in the scripts of packaging/ and tools/check-corefile", said, "")
    rows.end()


if __name__ == "__main__":
    main()
