#!/usr/bin/env python3
"""What reading a Corefile costs: user instructions by callgrind, of one of 4,096 lines beside one of 2,048.

Each is read, checked and made into chains by the program `conformance` (cd crates/conformance && rt run < stdin builds it), as `check`
cases; two runs, of one and of three lines, and their difference, less that of a case that reads the same digits and nothing more. Each case
behind the first is read twice, as at a start and as at a look behind the one before. The lines are counted with imports. Two rows more: a block of 20,000 keys and of 100,000, and a start of the built server (make build) whose
Corefile imports 127 files of 60,000 bytes and 254, the whole run up to a refusal behind the last. Exits 1 where so many times the
lines, keys or files cost over 1.1 times so many times as much. Wants valgrind.
"""
import os
import shutil
import subprocess
import sys
import tempfile

import callgrind
from callgrind import under

TOP = os.path.dirname(os.path.dirname(os.path.abspath(__file__)))
PROGRAM = os.path.join(TOP, "crates", "conformance", "out", "conformance")
SERVER = os.environ.get("DNSCHAIN_UNDER_TEST") or os.path.join(TOP, "crates", "dnschain", "out", "dnschain")
LINES, KEYS, FILES = (2_048, 4_096), (20_000, 100_000), (127, 254)
# What is measured runs once and three times. So many times as many may cost so many times as much, and a tenth more.
TIMES, MORE = 2, 1.1
# An imported file has so many lines of so many bytes.
FILE_LINES, LINE_BYTES = 250, 240
# A block of 64 lines: its key, `acl` with 60 lines of its own, and two braces and the key's.
BLOCK, RULES = 64, 60


def rules(number):
    return "".join(f"        block net 10.{number}.{rule}.0/24\n" for rule in range(RULES))


def of_words(blocks):
    return "".join(f"z{number}.example.org {{\n    acl {{\n{rules(number)}    }}\n}}\n" for number in range(blocks)), "-"


def of_snippet(blocks):
    snippet = f"(common) {{\n    acl {{\n{rules(0)}    }}\n}}\n"
    return snippet + "".join(f"z{number}.example.org {{\n    import common\n}}\n" for number in range(blocks)), "-"


def of_file(blocks):
    text = f"    acl {{\n{rules(0)}    }}\n"
    files = f"{b'/d/common'.hex()}:{text.encode().hex()}"
    return "".join(f"z{number}.example.org {{\n    import /d/common\n}}\n" for number in range(blocks)), files


def of_keys(number):
    keys = " ".join(f"z{key}.e" for key in range(number))
    return f"{keys} {{\n    any\n}}\n", "-"


def of_zones(blocks):
    text = "@ 300 IN SOA ns admin 1 7200 3600 1209600 60\n" + "".join(f"h{rule} 300 IN A 10.0.0.{rule}\n" for rule in range(RULES))
    zones = " ".join(f"z{number}.example.org" for number in range(blocks))
    return f". {{\n    file /d/db {zones}\n}}\n", f"{b'/d/db'.hex()}:{text.encode().hex()}"


CASES = [("lines of words", LINES, lambda lines: of_words(lines // BLOCK)),
         ("imports of one snippet", LINES, lambda lines: of_snippet(lines // BLOCK)),
         ("a file imported by each block", LINES, lambda lines: of_file(lines // BLOCK)), ("keys of one block", KEYS, of_keys),
         ("zones of one file, for each of 64 lines one", LINES, lambda lines: of_zones(lines // BLOCK))]


def collected(text, folder):
    """Instructions of a run over these cases, and the answer of the last."""
    cases, out = os.path.join(folder, "cases"), os.path.join(folder, "callgrind.out")
    with open(cases, "w") as file:
        file.write(text)
    with open(cases) as file:
        ran = subprocess.run([*under(out), PROGRAM], stdin=file, capture_output=True, text=True, check=True)
    return callgrind.collected(ran.stderr), ran.stdout.splitlines()[-1].split(" = ")[1]


def cost(case, folder):
    few, _ = collected(case, folder)
    many, answer = collected(case * (1 + TIMES), folder)
    return (many - few) / TIMES, answer


def of_case(make, size, folder):
    """Instructions of checking a Corefile."""
    conf, files = make(size)
    digits = conf.encode().hex()
    whole, answer = cost(f"check {digits} 53 - {files} = \n", folder)
    assert answer == "ok", (size, answer)
    blank, _ = cost(f"net {digits}{files.replace('-', '').replace(':', '')} = \n", folder)
    return whole - blank


def of_start(files, folder):
    """Instructions of a whole run whose Corefile imports so many files, and has an unknown directive behind them."""
    line = ("    words" * LINE_BYTES)[: LINE_BYTES - 1] + "\n"
    imports = ""
    for number in range(files):
        path = os.path.join(folder, f"imported{number}")
        with open(path, "w") as file:
            file.write(f"(s{number}) {{\n{line * FILE_LINES}}}\n")
        imports += f"import {path}\n"
    conf, out = os.path.join(folder, "Corefile"), os.path.join(folder, "callgrind.out")
    with open(conf, "w") as file:
        file.write(imports + ".:1053 {\n    unknown\n}\n")
    ran = subprocess.run([*under(out), SERVER, "serve", "--conf", conf], capture_output=True, text=True)
    assert "unknown directive" in ran.stdout + ran.stderr, (files, ran)
    return callgrind.collected(ran.stderr)


def told(title, sizes, costs):
    """Prints a row. Whether the larger one costs more than it may."""
    times, most = costs[1] / costs[0], MORE * sizes[1] / sizes[0]
    print(f"{costs[0]:14.0f} {costs[1]:14.0f} {times:6.3f}  {title}, {sizes[0]:,} and {sizes[1]:,}", flush=True)
    return times > most


def main():
    if shutil.which("valgrind") is None or not os.access(PROGRAM, os.X_OK):
        print("skipped: there is no valgrind, or the program isn't built")
        return 0
    status = 0
    with tempfile.TemporaryDirectory() as folder:
        for title, sizes, make in CASES:
            status |= told(title, sizes, [of_case(make, size, folder) for size in sizes])
        if os.access(SERVER, os.X_OK):
            status |= told("files imported at the start", FILES, [of_start(files, folder) for files in FILES])
    return status


if __name__ == "__main__":
    sys.exit(main())
