"""packaging/: the Debian package, the unit, the container and the cluster's file, on this machine alone.

Whatever it starts and mounts lives in a network and a mount namespace of its own, where port 53 is free. Skipped with a word is what the machine
lacks: namespaces, lintian, systemd's tools, tini, PyYAML.
"""
import os
import re
import shutil
import signal
import socket
import subprocess
import sys
import time

sys.path.insert(0, os.path.join(os.path.dirname(os.path.abspath(__file__)), "lib"))
import unit  # noqa: E402
from message import query_bytes, reply_lines  # noqa: E402
from program import PROGRAM, SECONDS, TOP, Client, Rows, needs_program  # noqa: E402
from under_systemd import Apart  # noqa: E402

PACKAGING = os.path.join(TOP, "packaging")
UNIT = os.path.join(PACKAGING, "dnschain.service")
ROOM = "/mnt"
OTHER = "192.0.2.1"
UID = 61184
QUESTION = query_bytes(["who.example", "A"])
ANSWERED = ["NOERROR qr aa rd", "additional who.example. 0 IN A {client}"]


def apart():
    """Makes the namespaces and goes on in them, or says why not."""
    for front in (["unshare", "--net", "--mount"], ["unshare", "--map-root-user", "--net", "--mount"]):
        if subprocess.run([*front, "true"], capture_output=True).returncode == 0:
            os.execvpe(front[0], [*front, sys.executable, os.path.abspath(__file__)], {**os.environ, "DNSCHAIN_APART": "1"})
    print("skipped: no network and no mounts of its own can be made here")


def ran(*words, seconds=120, **others):
    return subprocess.run(words, capture_output=True, text=True, timeout=seconds, **others)


def lacks(rows_of, *tools):
    """Whether one of these tools isn't there, and then says what is skipped."""
    missing = [tool for tool in tools if shutil.which(tool) is None]
    if missing:
        print(f"skipped {rows_of}: there is no {', '.join(missing)}")
    return bool(missing)


class Server:
    """A process that is ended with the block. It is asked at a port of this machine."""

    def __init__(self, words, port=53, **others):
        self.words, self.port, self.others = words, port, others

    def __enter__(self):
        self.process = subprocess.Popen(self.words, stdout=subprocess.PIPE, stderr=subprocess.PIPE, **self.others)
        return self

    def __exit__(self, *_):
        if self.process.poll() is None:
            for pid in [*self.children(), self.process.pid]:
                try:
                    os.kill(pid, signal.SIGKILL)
                except ProcessLookupError:
                    pass
        self.process.communicate(timeout=SECONDS)

    def children(self):
        try:
            with open(f"/proc/{self.process.pid}/task/{self.process.pid}/children") as file:
                return [int(pid) for pid in file.read().split()]
        except OSError:
            return []

    def answer(self, address="127.0.0.1", seconds=SECONDS):
        """The lines of the answer for a client of this address, asked again while the server starts; None where none comes."""
        end = time.monotonic() + seconds
        while time.monotonic() < end and self.process.poll() is None:
            with Client(self.port) as client:
                client.socket.close()
                client.socket = client_at(address, self.port)
                reply = client.ask(QUESTION, 0.2)
            if reply is not None:
                return [line for line in reply_lines(reply) if "SRV" not in line and "question" not in line]
        return None

    def next_line(self, seconds=SECONDS):
        """The next line on standard error, in time."""
        os.set_blocking(self.process.stderr.fileno(), False)
        end, said = time.monotonic() + seconds, b""
        while time.monotonic() < end and b"\n" not in said:
            said += self.process.stderr.read() or b""
            time.sleep(0.05)
        return said.decode().split("\n")[0]


def client_at(address, port):
    it = socket.socket(socket.AF_INET, socket.SOCK_DGRAM)
    it.bind((address, 0))
    it.connect((address, port))
    return it


def answered(address):
    return [line.replace("{client}", address) for line in ANSWERED]


# The Debian package

def unpacked_root(root, versions=()):
    """A root with a shell for the package's scripts, in whose list of packages stand those that the program's own libraries come from."""
    for folder in ("var/lib/dpkg/info", "var/lib/dpkg/updates", "tmp", "usr/bin", "usr/sbin", "proc"):
        os.makedirs(os.path.join(root, folder))
    for place in ("bin", "lib", "lib64", "sbin"):
        os.makedirs(os.path.join(root, "usr", place), exist_ok=True)
        os.symlink("usr/" + place, os.path.join(root, place))
    shell = os.path.realpath("/bin/sh")
    for path in {shell, *libraries(shell), *libraries(elf())}:
        to = root + path
        os.makedirs(os.path.dirname(to), exist_ok=True)
        shutil.copy(path, to)
    os.symlink(shell, os.path.join(root, "bin", "sh")) if not os.path.exists(os.path.join(root, "bin", "sh")) else None
    told = "".join(ran("dpkg-query", "--status", package).stdout + "\n" for package in ("libc6", "libgcc-s1"))
    told = re.sub(r"(?m)^(Pre-Depends|Depends|Conffiles|Breaks|Replaces): ?.*\n(?: .*\n)*", "", told)
    for old, new in versions:
        told = re.sub(old, new, told)
    with open(os.path.join(root, "var/lib/dpkg/status"), "w") as file:
        file.write(told)


def libraries(program):
    return re.findall(r"(?m)^\s*(?:\S+ => )?(/\S+) \(", ran("ldd", program).stdout)


def elf():
    """The program as a file that the system runs by itself, where there is one."""
    with open(PROGRAM, "rb") as file:
        return PROGRAM if file.read(4) == b"\x7fELF" else None


def take_package(rows):
    """Builds the package twice, installs it, asks it, and takes it away; the root with it stays."""
    if lacks("the package", "dpkg-deb", "dpkg", "ldd", "readelf"):
        return None
    making = [subprocess.Popen([os.path.join(PACKAGING, "build-deb"), f"{ROOM}/{name}", elf()], stdout=subprocess.PIPE, stderr=subprocess.STDOUT, text=True)
              for name in ("one", "two")]
    package, other = (each.communicate(timeout=300)[0].strip() for each in making)
    rows.row("build-deb makes a package", making[0].returncode == 0, package)
    if making[0].returncode:
        return None
    with open(package, "rb") as one, open(other, "rb") as two:
        rows.row("build-deb: the same files give the same package", one.read() == two.read())
    judge = None if lacks("lintian", "lintian") else subprocess.Popen(["lintian", "--fail-on", "error", package], stdout=subprocess.PIPE, stderr=subprocess.DEVNULL, text=True)
    fields = dict(re.findall(r"(?m)^ ?([A-Z][\w-]+): (.*)$", ran("dpkg-deb", "--info", package).stdout))
    version = open(os.path.join(TOP, "VERSION")).read().strip()
    rows.equal("package: its version and architecture", (fields["Version"], fields["Architecture"]), (version + "-1", ran("dpkg", "--print-architecture").stdout.strip()))
    wanted = sorted({ran("dpkg-query", "--search", os.path.realpath(path), path).stdout.split(":")[0] for path in libraries(elf())} - {""})
    rows.equal("package: it depends on what ldd names", sorted(re.findall(r"([\w.+-]+)(?: \(>= [\d.]+\))?(?:, |$)", fields["Depends"])), wanted)
    try_old_library(rows, package, fields)
    root = os.path.join(ROOM, "root")
    unpacked_root(root)
    installed = ran("dpkg", "--root", root, "--install", package)
    rows.row("package: dpkg installs it into an unpacked root", installed.returncode == 0, installed.stdout + installed.stderr)
    start = ["chroot", root, "/usr/sbin/dnschain", "serve", "--conf", "/etc/dnschain/Corefile"]
    with Server(start) as server:
        rows.equal("package: started from there, it answers on loopback", server.answer(), answered("127.0.0.1"))
        rows.equal("package: as shipped it answers no other client", server.answer(OTHER, 0.5), None)
    return root, package, judge


def try_old_library(rows, package, fields):
    root = os.path.join(ROOM, "old")
    unpacked_root(root, [(r"(?m)(^Package: libc6\n(?:.+\n)*?Version: ).*", r"\g<1>2.28-10")])
    refused = ran("dpkg", "--root", root, "--install", package, env={**os.environ, "LC_ALL": "C"})
    needs = (re.search(r"libc6 \(>= [\d.]+\)", fields["Depends"]) or ["a version of libc6"])[0]
    rows.row("package: dpkg refuses it where the C library is older", refused.returncode == 1 and f"dnschain depends on {needs}" in refused.stderr, refused.stderr)


def remove_package(rows, root, package, judge):
    conf = os.path.join(root, "etc/dnschain/Corefile")
    with open(conf, "a") as file:
        file.write("# mine\n")
    again = ran("dpkg", "--root", root, "--install", package)
    rows.row("package: a changed Corefile is kept when it is installed again", again.returncode == 0 and open(conf).read().endswith("# mine\n"), again.stderr)
    ran("dpkg", "--root", root, "--remove", "dnschain")
    rows.equal("package: removed, it leaves the Corefile alone", (os.path.exists(root + "/usr/sbin/dnschain"), os.path.exists(conf)), (False, True))
    purged = ran("dpkg", "--root", root, "--purge", "dnschain")
    left = [os.path.join(at, name) for at, _, names in os.walk(root) for name in names if "dnschain" in os.path.join(at, name).removeprefix(root)]
    rows.equal("package: purged, it leaves nothing", (purged.returncode, left), (0, []))
    if judge is not None:
        try:
            said = judge.communicate(timeout=120)[0]
        except subprocess.TimeoutExpired:
            judge.kill()
            judge.communicate()
            print("skipped lintian: it took longer than two minutes")
            return
        rows.row("package: lintian finds no error", judge.returncode == 0 and not re.search(r"(?m)^E:", said), said)


# The unit

def take_unit(rows, root):
    said = unit.settings(UNIT)
    rows.equal("unit: what it may is to open port 53 alone", (said["AmbientCapabilities"], said["CapabilityBoundingSet"]), (["CAP_NET_BIND_SERVICE"],) * 2)
    rows.equal("unit: a Corefile that was refused is tried again, wrong words aren't", (said["Restart"], said["RestartPreventExitStatus"]), (["on-failure"], ["2"]))
    rows.row("unit: no signal reloads", "ExecReload" not in said)
    if not lacks("the unit's exposure", "systemd-analyze"):
        judged = ran("systemd-analyze", "security", "--offline=yes", "--no-pager", UNIT).stdout
        exposure = re.search(r"Overall exposure level for \S+: ([\d.]+)", judged)
        rows.row("unit: its exposure is at most 2.0", exposure is not None and float(exposure[1]) <= 2.0, judged[-200:])
    if root is None or lacks("the unit's settings", "setpriv", "prlimit", "systemd-analyze"):
        return
    if not may_be_another():
        print("skipped the unit's settings: no other user can be had here")
        return
    words = said["ExecStart"][0].replace("$DNSCHAIN_OPTIONS", "").split()
    words = [root + word if word.startswith("/") else word for word in words]
    # This copy of the repository may lie in /tmp, which the unit hides.
    for path in (unit.__file__, UNIT):
        shutil.copy(path, ROOM)
    front = ["unshare", "--mount", sys.executable, f"{ROOM}/unit.py", f"{ROOM}/dnschain.service", str(UID)]
    with Server([*front, *words], cwd=os.path.join(root, "etc/dnschain")) as server:
        rows.equal("unit: so started, it answers on port 53", server.answer(), answered("127.0.0.1"))
        if server.process.poll() is not None:
            rows.row("unit: so started, it serves on", False, server.process.communicate())
            return
        status = dict(re.findall(r"(?m)^(\w+):\s*(.*)$", read(f"/proc/{server.process.pid}/status")))
        rows.equal("unit: as that user, with that right alone, and no new ones",
                   (status["Uid"].split(), status["CapEff"], status["CapBnd"], status["NoNewPrivs"]), ([str(UID)] * 4, f"{1 << 10:016x}", f"{1 << 10:016x}", "1"))
        rows.row("unit: by its filter of system calls", status["Seccomp"] == "2" or not os.path.exists(unit.HEADER), status["Seccomp"])
        mounts = {line.split()[4]: line.split()[5].split(",")[0] for line in read(f"/proc/{server.process.pid}/mountinfo").splitlines()}
        rows.equal("unit: its system is read-only", (mounts["/"], mounts[ROOM]), ("ro", "ro"))
        limit = unit.descriptors(said)
        if limit == int(said["LimitNOFILE"][0]):
            rows.row("unit: so many descriptors", re.search(rf"Max open files +{limit} ", read(f"/proc/{server.process.pid}/limits")))
        else:
            print(f"skipped the unit's LimitNOFILE: this machine gives at most {limit}")
    conf = os.path.join(root, "etc/dnschain/Corefile")
    shutil.copy(conf, conf + ".good")
    change(conf, "whoamy\n")
    refused = ran(*front, *words, seconds=SECONDS)
    rows.equal("unit: a Corefile that is refused is told with its status, without a time", (refused.returncode, refused.stdout, refused.stderr),
               (1, "corefile line 1: block: outside\n", ""))
    os.replace(conf + ".good", conf)


def take_systemd(rows, root):
    """The unit under a systemd of its own: who it is, its journal, and that a Corefile which is refused is tried again until it is mended."""
    if root is None or lacks("the unit under systemd", "systemctl", "journalctl", "nsenter"):
        return
    with Apart(root, os.path.join(ROOM, "systemd")) as systemd:
        if systemd.why is not None:
            print(f"skipped the unit under systemd: {systemd.why}")
            return
        rows.equal("systemd: the unit answers on port 53", asked_again(20), answered("127.0.0.1"))
        pids = systemd.pids("system.slice/dnschain.service")
        status = dict(re.findall(r"(?m)^(\w+):\s*(.*)$", read(f"/proc/{pids[0]}/status"))) if pids else {}
        rows.row("systemd: as a user of its own, with that right alone",
                 status and 61184 <= int(status["Uid"].split()[0]) <= 65519 and status["CapEff"] == f"{1 << 10:016x}" and status["Seccomp"] == "2", status)
        conf = os.path.join("/proc", str(systemd.pids("init.scope")[0]), "root", "etc", "dnschain", "Corefile")
        good = read(conf)
        change(conf, "whoamy\n")
        systemd.says("systemctl", "restart", "dnschain")
        rows.equal("systemd: a Corefile that is refused ends it with its status", until(lambda: systemd.says("systemctl", "show", "-p", "ExecMainStatus", "--value", "dnschain").strip(), "1"), "1")
        lines = systemd.says("journalctl", "-t", "dnschain", "-o", "cat", "--no-pager").splitlines()
        rows.equal("systemd: the journal has the told line as it is", lines[-1:], ["corefile line 1: block: outside"])
        change(conf, good)
        rows.equal("systemd: it is tried again, and serves once the Corefile is mended", asked_again(20), answered("127.0.0.1"))
        restarts = systemd.says("systemctl", "show", "-p", "NRestarts", "--value", "dnschain").strip()
        rows.row("systemd: by the unit's own rule", restarts.isdigit() and int(restarts) > 0, restarts)
        scripts, before = os.path.join(root, "var/lib/dpkg/info/dnschain."), systemd.pids("system.slice/dnschain.service")
        systemd.says("sh", scripts + "postinst", "configure", "0.0.1-1")
        rows.row("systemd: an upgrade starts a running server anew", asked_again(20) and systemd.pids("system.slice/dnschain.service") not in ([], before), before)
        systemd.says("sh", scripts + "prerm", "remove")
        rows.equal("systemd: removing the package ends it, in good order", systemd.says("systemctl", "is-failed", "dnschain").strip(), "inactive")


def asked_again(seconds):
    """The answer of whatever serves port 53, once it does."""
    found, end = None, time.monotonic() + seconds
    while found is None and time.monotonic() < end:
        with client_at("127.0.0.1", 53) as client:
            client.settimeout(0.2)
            try:
                client.send(QUESTION)
                found = [line for line in reply_lines(client.recv(65535)) if "SRV" not in line and "question" not in line]
            except (TimeoutError, ConnectionRefusedError):
                time.sleep(0.1)
    return found


def until(asked, want, seconds=10):
    """What is said, asked again until it is that."""
    end = time.monotonic() + seconds
    while (said := asked()) != want and time.monotonic() < end:
        time.sleep(0.2)
    return said


def take_stub(rows, room):
    """Somebody has port 53 at one address of loopback, as systemd-resolved does."""
    with open(os.path.join(room, "alone"), "w") as file:
        file.write(". {\n    whoami\n}\n")
    with socket.socket(socket.AF_INET, socket.SOCK_DGRAM) as stub:
        stub.bind(("127.0.0.53", 53))
        with Server([PROGRAM, "serve", "--conf", os.path.join(room, "alone")]) as server:
            said = server.next_line()
            rows.row("port 53: where somebody has it at 127.0.0.53 it is opened at the others", re.fullmatch(r"udp port 53 open at [0-9a-f.: ]+", said), said)
            for address in ("127.0.0.1", OTHER):
                rows.equal(f"port 53: and served at {address}", server.answer(address), answered(address))


def may_be_another():
    return ran("setpriv", f"--reuid={UID}", f"--regid={UID}", "--clear-groups", "true").returncode == 0


def read(path):
    with open(path) as file:
        return file.read()


def change(path, text):
    with open(path + ".new", "w") as file:
        file.write(text)
    os.replace(path + ".new", path)


# The container

def take_container(rows):
    if lacks("the container", "tini-static", "ldd"):
        return
    context, root = os.path.join(ROOM, "context"), os.path.join(ROOM, "image")
    made = ran(os.path.join(PACKAGING, "container-files"), context, elf())
    rows.equal("container-files lays out what the Containerfile copies", (made.returncode, made.stdout + made.stderr), (0, ""))
    os.makedirs(root)
    words, folder = built(context, root)
    os.makedirs(os.path.join(root, "proc"))
    port = int(words[words.index("--port") + 1])
    front = ["unshare", "--fork", "--pid", "--mount", f"--root={root}", f"--wd={folder}", "--setuid=65534", "--setgid=65534"]
    if not may_be_another():
        front = front[:-2]
    with Server([*front, *words], port) as server:
        rows.equal("container: it answers, as process 1's child", server.answer(), answered("127.0.0.1"))
        begun = time.monotonic()
        os.kill(server.children()[0], signal.SIGTERM)
        while server.process.poll() is None and time.monotonic() - begun < SECONDS:
            time.sleep(0.02)
        rows.row("container: TERM ends it within a second", time.monotonic() - begun < 1, (server.process.poll(), time.monotonic() - begun))
    with Server([*front, *words[words.index("/usr/sbin/dnschain"):]], port) as server:
        server.answer()
        os.kill(server.children()[0], signal.SIGTERM)
        time.sleep(0.3)
        rows.equal("container: without an init TERM is ignored", server.answer(), answered("127.0.0.1"))


def built(context, root):
    """Does what the Containerfile says, and gives the words that it starts and where."""
    words, folder = {}, "/"
    for line in read(os.path.join(PACKAGING, "Containerfile")).splitlines():
        verb, _, rest = line.partition(" ")
        if verb == "COPY":
            source, to = rest.split()
            shutil.copytree(os.path.join(context, source), root + to, symlinks=True, dirs_exist_ok=True)
        elif verb == "WORKDIR":
            folder = rest
        elif verb in ("ENTRYPOINT", "CMD"):
            words[verb] = [word.strip(' "') for word in rest.strip("[]").split(",")]
    return words["ENTRYPOINT"] + words["CMD"], folder


# The cluster

def take_cluster(rows):
    try:
        import yaml
    except ImportError:
        print("skipped the cluster's file: there is no PyYAML")
        return
    with open(os.path.join(PACKAGING, "kubernetes.yaml")) as file:
        config, deployment, service = yaml.safe_load_all(file)
    pod = deployment["spec"]["template"]["spec"]
    server = pod["containers"][0]
    ports = {port["name"]: port["containerPort"] for port in server["ports"]}
    served = int(server["args"][server["args"].index("--port") + 1])
    rows.equal("cluster: the ports are those that are served", (set(ports.values()), {port["targetPort"] for port in service["spec"]["ports"]}), ({served}, set(ports)))
    probes = [list(server[name])[0] for name in ("readinessProbe", "livenessProbe")]
    rows.equal("cluster: probes are by TCP", probes, ["tcpSocket"] * 2)
    rows.row("cluster: the Corefile is mounted as a folder", "subPath" not in server["volumeMounts"][0])
    folder = os.path.join(ROOM, "volume")
    text = config["data"]["Corefile"].replace("reload\n", "reload 2s 1s\n")
    swap(folder, "first", text)
    os.symlink("..data/Corefile", os.path.join(folder, "Corefile"))
    words = [word.replace("/etc/dnschain", folder) for word in server["args"]]
    with Server([PROGRAM, *words], served) as running:
        rows.equal("cluster: it answers by the ConfigMap", running.answer(), answered("127.0.0.1"))
        with socket.create_connection(("127.0.0.1", served), 2):
            rows.row("cluster: its probe gets a connection", True)
        swap(folder, "second", text.replace("whoami", "acl {\n        block\n    }\n    whoami"))
        rows.equal("cluster: the kubelet's swap is taken up", running.next_line(), "reload published 1")
        rows.equal("cluster: and answers change", running.answer(), ["REFUSED qr rd"])


def swap(folder, name, text):
    """Puts a Corefile as the kubelet does: a folder beside, and then its link over the old one."""
    os.makedirs(os.path.join(folder, "..now_" + name))
    change(os.path.join(folder, "..now_" + name, "Corefile"), text)
    os.symlink("..now_" + name, os.path.join(folder, "..data_tmp"))
    os.replace(os.path.join(folder, "..data_tmp"), os.path.join(folder, "..data"))


def main():
    needs_program()
    if lacks("all of packaging/", "unshare", "mount", "ip"):
        return
    if "DNSCHAIN_APART" not in os.environ:
        apart()
        return
    rows = Rows()
    os.umask(0o022)
    subprocess.run(["mount", "--make-rprivate", "/"], check=True)
    subprocess.run(["mount", "-t", "tmpfs", "-o", "mode=755", "tmpfs", ROOM], check=True)
    for words in (["link", "set", "lo", "up"], ["address", "add", OTHER + "/32", "dev", "lo"]):
        subprocess.run(["ip", *words], check=True)
    package = None
    if elf() is None:
        print(f"skipped the package and the container: {PROGRAM} is no ELF file")
    else:
        package = take_package(rows)
    take_unit(rows, package[0] if package else None)
    take_systemd(rows, package[0] if package else None)
    if elf() is not None:
        take_container(rows)
    take_cluster(rows)
    take_stub(rows, ROOM)
    if package:
        remove_package(rows, *package)
    rows.end()


if __name__ == "__main__":
    main()
