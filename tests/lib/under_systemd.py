"""A systemd of its own, in namespaces, for the unit of an unpacked package: on machines that another init runs.

Its processes are in a control group of their own; its /run, /tmp, /var/log and what it writes in /etc vanish with it, and it starts the journal
and the unit alone. Of this machine it wants root, cgroup2, overlayfs, and systemd's files.
"""
import os
import re
import signal
import subprocess
import sys
import time

SYSTEMD = "/lib/systemd/systemd"
TARGETS = ("sysinit", "basic", "network-online", "shutdown", "multi-user")
INSIDE = r"""set -e
root=$1
room=$2
mount -t proc proc /proc
umount -R /sys/fs/cgroup
mount -t cgroup2 cgroup2 /sys/fs/cgroup
for place in /run /tmp /var/log /var/tmp /usr/lib/systemd/system/sysinit.target.wants; do
    mount -t tmpfs tmpfs "$place"
done
mkdir -p "$room/etc/dnschain" "$room/work"
cp "$root/etc/dnschain/Corefile" "$room/etc/dnschain/Corefile"
mount -t overlay overlay -o "lowerdir=$root/usr/sbin:/usr/sbin" /usr/sbin
mount -t overlay overlay -o "lowerdir=/etc,upperdir=$room/etc,workdir=$room/work" /etc
rm -f /etc/machine-id
echo 0123456789abcdef0123456789abcdef >/etc/machine-id
mkdir -p /run/systemd/system /run/log/journal /etc/systemd/journald.conf.d
printf '[Journal]\nReadKMsg=no\nStorage=volatile\n' >/etc/systemd/journald.conf.d/apart.conf
cp "$root/lib/systemd/system/dnschain.service" /run/systemd/system/
shift 2
for target in "$@"; do
    printf '[Unit]\nDefaultDependencies=no\n' >"/run/systemd/system/$target.target"
done
printf '[Unit]\nDefaultDependencies=no\nWants=systemd-journald.service dnschain.service\nAllowIsolate=yes\n' >/run/systemd/system/apart.target
exec env container=other /lib/systemd/systemd --system --unit=apart.target --log-target=journal --show-status=no
"""


class Apart:
    """The systemd, with the unit started. `why` says what the machine lacks where it couldn't be."""

    def __init__(self, root, room):
        self.root, self.room, self.process, self.why = root, room, None, None

    def __enter__(self):
        with open("/proc/mounts") as file:
            places = re.findall(r"(?m)^\S+ (\S+) cgroup2 ", file.read())
        if not os.access(SYSTEMD, os.X_OK) or os.getuid() != 0 or not places:
            self.why = "no systemd, no root or no cgroup2"
            return self
        self.group = os.path.join(places[0], f"dnschain-test-{os.getpid()}")
        try:
            os.mkdir(self.group)
        except OSError as fault:
            self.why, self.group = f"no control group: {fault.strerror}", None
            return self
        words = ["unshare", "--cgroup", "--mount", "--pid", "--fork", "--kill-child", "--uts", "--ipc", "sh", "-c", INSIDE, "sh", self.root, self.room, *TARGETS]
        join = "import os, sys; open(sys.argv[1] + '/cgroup.procs', 'w').write(str(os.getpid())); os.execvp(sys.argv[2], sys.argv[2:])"
        self.process = subprocess.Popen([sys.executable, "-c", join, self.group, *words], stdout=subprocess.DEVNULL, stderr=subprocess.DEVNULL)
        end = time.monotonic() + 20
        while time.monotonic() < end and self.process.poll() is None and not self.pids("init.scope"):
            time.sleep(0.1)
        if not self.pids("init.scope"):
            self.why = "a systemd of its own doesn't start here"
        return self

    def pids(self, unit):
        """The processes of a unit, as this namespace numbers them."""
        try:
            with open(os.path.join(self.group, unit, "cgroup.procs")) as file:
                return [int(pid) for pid in file.read().split()]
        except OSError:
            return []

    def says(self, *words):
        """What a command of systemd prints, in its namespaces."""
        init = self.pids("init.scope")[0]
        return subprocess.run(["nsenter", "-t", str(init), "-m", "-p", "-C", "-i", "-u", *words], capture_output=True, text=True, timeout=20).stdout

    def __exit__(self, *_):
        if self.process is not None:
            for pid in self.pids("init.scope"):
                os.kill(pid, signal.SIGKILL)
            if self.process.poll() is None:
                self.process.kill()
            self.process.wait(20)
        if getattr(self, "group", None):
            end = time.monotonic() + 5
            while time.monotonic() < end and os.path.isdir(self.group):
                for at, _, _ in os.walk(self.group, topdown=False):
                    try:
                        os.rmdir(at)
                    except OSError:
                        time.sleep(0.05)
