"""What the benches share that count user instructions by callgrind."""
import glob
import os
import re
import subprocess

SECONDS = 60


def under(out, *options):
    """What stands in front of the words of a command so that its instructions are counted, in a file of this name."""
    return ["valgrind", "--tool=callgrind", *options, f"--callgrind-out-file={out}"]


def collected(said):
    """The user instructions of a whole run, by what callgrind said at its end."""
    return int(re.search(r"Collected : (\d+)", said).group(1))


def under_all(out):
    """The same for a command whose processes are dumped, those that it forks too, each into files of its own."""
    return under(f"{out}.%p", "--trace-children=yes")


def dumped(out, pids):
    """User instructions that these processes have run since they were dumped last, or since they started."""
    total = 0
    for pid in pids:
        subprocess.run(["callgrind_control", "--dump", str(pid)], check=True, capture_output=True, timeout=SECONDS)
        [path] = glob.glob(f"{glob.escape(out)}.{pid}.*")
        with open(path) as file:
            total += int(re.search(r"^totals: (\d+)$", file.read(), re.M).group(1))
        os.remove(path)
    return total
