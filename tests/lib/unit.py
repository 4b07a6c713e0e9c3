"""What a systemd unit says of the process that it starts, applied without systemd: for machines that systemd doesn't run.

usage: python3 unit.py UNIT UID COMMAND ..     runs COMMAND as the unit's settings would have it, in a mount namespace that was made for it

Of the settings it applies the user, the capabilities, no new privileges, the read-only system, the private /tmp, the limit of descriptors and
the filter of system calls, whose sets `systemd-analyze syscall-filter` tells. The rest `systemd-analyze security` judges.
"""
import ctypes
import os
import re
import resource
import struct
import subprocess
import sys

HEADER = "/usr/include/x86_64-linux-gnu/asm/unistd_64.h"
LOAD, IS, RETURN, ALLOWED, REFUSED = 0x20, 0x15, 0x06, 0x7FFF0000, 0x00050001


def settings(path):
    """The settings of a unit, each with the list of its values in order."""
    found = {}
    with open(path, encoding="utf-8") as file:
        for line in file:
            key, is_setting, value = line.strip().partition("=")
            if is_setting and not line.startswith("#"):
                found.setdefault(key, []).append(value)
    return found


def members(name):
    """The system calls of a set, or a system call."""
    if not name.startswith("@"):
        return {name}
    told = subprocess.run(["systemd-analyze", "syscall-filter", "--no-pager", name], capture_output=True, text=True, check=True).stdout
    found = set()
    for line in told.splitlines()[1:]:
        word = line.strip()
        if word and not word.startswith("#"):
            found |= members(word)
    return found


def allowed(unit):
    """The numbers of the system calls that a unit's filter leaves, or None where this machine doesn't say them."""
    if not os.path.exists(HEADER):
        return None
    with open(HEADER, encoding="utf-8") as file:
        numbers = {name: int(number) for name, number in re.findall(r"#define __NR_(\w+) (\d+)", file.read())}
    left = set()
    for line in unit["SystemCallFilter"]:
        named = set().union(*(members(name) for name in line.lstrip("~").split()))
        left = left - named if line.startswith("~") else left | named
    return sorted(numbers[name] for name in left if name in numbers)


class Program(ctypes.Structure):
    _fields_ = [("length", ctypes.c_ushort), ("filter", ctypes.c_void_p)]


def filter_calls(numbers):
    """From now on a system call that isn't one of these fails with EPERM."""
    code = struct.pack("=HBBI", LOAD, 0, 0, 0)
    for number in numbers:
        code += struct.pack("=HBBI", IS, 0, 1, number) + struct.pack("=HBBI", RETURN, 0, 0, ALLOWED)
    code += struct.pack("=HBBI", RETURN, 0, 0, REFUSED)
    kept = ctypes.create_string_buffer(code)
    program = Program(len(code) // 8, ctypes.addressof(kept))
    libc = ctypes.CDLL(None, use_errno=True)
    if libc.prctl(22, 2, ctypes.byref(program), 0, 0) != 0:
        raise OSError(ctypes.get_errno(), "no filter of system calls")


def make_read_only():
    """Every mount of this namespace but those of the kernel, and a /tmp of its own."""
    with open("/proc/self/mounts", encoding="utf-8") as file:
        places = [line.split()[1] for line in file]
    for place in places:
        if not re.match(r"/(proc|sys|dev)(/|$)", place):
            subprocess.run(["mount", "-o", "remount,bind,ro", place], check=False, stderr=subprocess.DEVNULL)
    for place in ("/tmp", "/var/tmp"):
        subprocess.run(["mount", "-t", "tmpfs", "tmpfs", place], check=True)


def descriptors(unit):
    """The limit of descriptors of a unit, or what this machine lets one have."""
    hard = resource.getrlimit(resource.RLIMIT_NOFILE)[1]
    limit = int(unit["LimitNOFILE"][0])
    try:
        resource.setrlimit(resource.RLIMIT_NOFILE, (limit, max(limit, hard)))
        return limit
    except (ValueError, OSError):
        return min(limit, hard)


def main():
    unit, uid, command = settings(sys.argv[1]), sys.argv[2], sys.argv[3:]
    if command[0] == "--filter":
        filter_calls([int(number) for number in command[1].split(",")])
        os.execv(command[2], command[2:])
    numbers = allowed(unit)
    make_read_only()
    capability = unit["AmbientCapabilities"][0].lower().removeprefix("cap_")
    limit = descriptors(unit)
    front = ["setpriv", f"--reuid={uid}", f"--regid={uid}", "--clear-groups", f"--inh-caps=-all,+{capability}", f"--ambient-caps=-all,+{capability}",
             f"--bounding-set=-all,+{capability}", "--no-new-privs"]
    if numbers is not None:
        command = [sys.executable, os.path.abspath(__file__), sys.argv[1], uid, "--filter", ",".join(map(str, numbers)), *command]
    os.execvp("prlimit", ["prlimit", f"--nofile={limit}:{limit}", *front, *command])


if __name__ == "__main__":
    main()
