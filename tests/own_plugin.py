"""The example of a program with a plugin of its own, built without proof beside the crates: what its plugin refuses and passes, and what words it takes."""
import os
import shutil
import signal
import subprocess
import sys
import tempfile
import time

sys.path.insert(0, os.path.join(os.path.dirname(os.path.abspath(__file__)), "lib"))
from program import Client, Rows, free_port  # noqa: E402

TOP = os.path.dirname(os.path.dirname(os.path.abspath(__file__)))
EXAMPLE = os.path.join(TOP, "examples", "own-plugin")
BUILD_SECONDS = 1200
NAME = bytes.fromhex("076578616d706c65036f726700")


def query(kind):
    """example.org, this type, class IN, with RD."""
    return bytes.fromhex("123401000001000000000000") + NAME + kind.to_bytes(2, "big") + b"\x00\x01"


def started(room, conf, port):
    words = ["try", "--seconds", "100000", "--steps", "1000000000", "--", "serve", "--conf", conf, "--port", str(port)]
    return subprocess.Popen([os.path.join(EXAMPLE, "build"), room, *words], stdout=subprocess.PIPE, stderr=subprocess.STDOUT, text=True, start_new_session=True)


def answered(port, kind, run):
    """The first reply, once the program is built and serves."""
    end = time.monotonic() + BUILD_SECONDS
    while time.monotonic() < end and run.poll() is None:
        with Client(port) as client:
            got = client.ask(query(kind), 0.5)
        if got is not None:
            return got
        time.sleep(0.5)
    return None


def main():
    rows = Rows()
    if shutil.which("rt") is None:
        print("skipped examples/own-plugin: there is no rt")
        rows.end()
    with tempfile.TemporaryDirectory() as room:
        port = free_port()
        run = started(room, os.path.join(EXAMPLE, "Corefile"), port)
        try:
            got = answered(port, 1, run)
            rows.row("a question for A goes on to whoami", got is not None and got[3] & 15 == 0 and got[11] == 2, got)
            with Client(port) as client:
                got = client.ask(query(16))
            rows.row("one for TXT is refused", got is not None and got[3] & 15 == 5 and len(got) == len(query(16)), got)
        finally:
            if run.poll() is None:
                os.killpg(run.pid, signal.SIGTERM)
            run.wait()
        bad = os.path.join(room, "Corefile")
        with open(bad, "w") as file:
            file.write(". {\n    only A NONSENSE\n    whoami\n}\n")
        run = started(room, bad, port)
        told = run.communicate(timeout=BUILD_SECONDS)[0]
        rows.row("a word that is no type is refused", "corefile line 2: directive: extra" in told, told[-400:])
    rows.end()


if __name__ == "__main__":
    main()
