"""A client with IPv6 alone that resolves names through dns64 by the C library, and reaches what has an address of IPv4 alone.

Server and client stand in networks of their own, joined by a pair of interfaces. The client has one address of IPv6, a resolv.conf that names
the server, and a route for the prefix, at whose end this script passes connections on over IPv4, as a translator of packets (NAT64) does.
"""
import json
import os
import shutil
import socket
import subprocess
import sys
import tempfile
import threading

sys.path.insert(0, os.path.join(os.path.dirname(os.path.abspath(__file__)), "lib"))
from message import query_bytes  # noqa: E402
from program import SECONDS, Rows, Served, needs_program  # noqa: E402
from upstream import Upstream  # noqa: E402

SERVER, CLIENT, V4 = "fd00:64::53", "fd00:64::2", "192.0.2.33"
MADE, NAME = "64:ff9b::c000:221", "h.hosts.test"
PORT = 8080
MANY = 40
HOSTS = f"{V4} {NAME}\n2001:db8::6 six.hosts.test\n192.0.2.6 six.hosts.test\n"
ZONE = "\n".join(["$TTL 300", "@ SOA ns admin 1 7200 3600 1209600 60", "@ NS ns", "ns A 192.0.2.53", "www CNAME web", "web A 192.0.2.34",
                  *(f"wide A 192.0.2.{k}" for k in range(1, MANY + 1)), ""])
UPSTREAM = ["far.test A", "answer far.test. 60 IN A 192.0.2.35", "far.test *",
            "ipv4only.arpa A", "answer ipv4only.arpa. 60 IN A 192.0.0.170", "answer ipv4only.arpa. 60 IN A 192.0.0.171", "ipv4only.arpa *",
            "* * rcode NXDOMAIN"]
CONF = """.:{port} {
    dns64 {
        ptr
    }
    cache
    hosts ROOM/hosts {
        fallthrough
    }
    file ROOM/db zone.test
    forward . 127.0.0.1:UPSTREAM
}
"""
OUTSIDE = (f"ip link set lo up && ip address add {V4}/32 dev lo && ip -6 address add {MADE}/128 dev lo nodad && "
           f"ip link add toclient type veth peer name toserver && ip link set toclient up && ip -6 address add {SERVER}/64 dev toclient nodad")
INSIDE = (f"ip link set lo up && ip address del 127.0.0.1/8 dev lo && ip link set toserver up && ip -6 address add {CLIENT}/64 dev toserver nodad && "
          f"ip -6 route add 64:ff9b::/96 via {SERVER} && mount --bind resolv.conf /etc/resolv.conf && mount --bind nsswitch.conf /etc/nsswitch.conf")


def ran(words, **others):
    return subprocess.run(words, capture_output=True, text=True, timeout=60, **others)


def own_network():
    """Makes namespaces for the server and goes on in them, or says why not."""
    missing = [tool for tool in ("unshare", "ip", "mount", "getent") if shutil.which(tool) is None]
    missing += [path for path in ("/etc/resolv.conf", "/etc/nsswitch.conf", "/proc/sys/net/ipv6") if not os.path.exists(path)]
    if missing:
        print(f"skipped: there is no {', '.join(missing)}")
        return
    for front in (["unshare", "--net", "--mount"], ["unshare", "--map-root-user", "--net", "--mount"]):
        if ran([*front, "sh", "-c", OUTSIDE]).returncode == 0:
            os.execvp(front[0], [*front, sys.executable, os.path.abspath(__file__), "server"])
    print("skipped: no network and no mounts of its own can be made here")


def greet(listener):
    """Sends to each connection at which address it came."""
    while True:
        client, _ = listener.accept()
        with client:
            client.sendall(client.getsockname()[0].encode())


def pass_on(listener):
    """Passes on what is sent at the address of IPv4 behind the prefix."""
    while True:
        client, _ = listener.accept()
        with client, socket.create_connection((V4, PORT), SECONDS) as behind:
            while piece := behind.recv(65536):
                client.sendall(piece)


def listen(family, address, work):
    listener = socket.create_server((address, PORT), family=family)
    threading.Thread(target=work, args=(listener,), daemon=True).start()


def addresses(name, flags):
    try:
        return sorted({found[4][0] for found in socket.getaddrinfo(name, PORT, type=socket.SOCK_STREAM, flags=flags)})
    except socket.gaierror as fault:
        return fault.errno


def reached(name):
    try:
        with socket.create_connection((name, PORT), SECONDS) as stream:
            return stream.makefile("rb").read().decode()
    except OSError as fault:
        return repr(fault)


def client(room):
    """What a client sees, once the server's end of the pair stands."""
    print("ready", flush=True)
    sys.stdin.readline()
    done = ran(["sh", "-c", INSIDE], cwd=room)
    if done.returncode != 0:
        print(json.dumps({"made": done.stderr}))
        return
    getent = {name: ran(["getent", *name.split()]).stdout.split("\n")[:-1] for name in
              (f"ahosts {NAME}", "ahosts six.hosts.test", f"hosts {MADE}", "ahosts nope.zone.test", "ahosts nope.test")}
    names = (NAME, "www.zone.test", "wide.zone.test", "far.test", "ipv4only.arpa", "nope.zone.test")
    alone = {name: addresses(name, socket.AI_ADDRCONFIG) for name in names}
    print(json.dumps({"getent": getent, "alone": alone, "both": addresses(NAME, 0), "reached": reached(NAME)}))


def seen(room):
    """What the client says, in a network of its own at the other end of the pair."""
    words = ["unshare", "--net", "--mount", sys.executable, os.path.abspath(__file__), "client", room]
    with subprocess.Popen(words, stdin=subprocess.PIPE, stdout=subprocess.PIPE, text=True) as process:
        process.stdout.readline()
        subprocess.run(["ip", "link", "set", "toserver", "netns", str(process.pid)], check=True)
        said, _ = process.communicate("go\n", timeout=60)
    return json.loads(said)


def put(room, name, text):
    with open(os.path.join(room, name), "w", encoding="ascii") as file:
        file.write(text)


def mapped(*numbers):
    return sorted(f"64:ff9b::c000:{number:x}" for number in numbers)


def take_rows(rows, got):
    getent = {words: [line.split() for line in lines] for words, lines in got["getent"].items()}
    rows.equal("getent gives a name with IPv4 alone an address behind the prefix", getent[f"ahosts {NAME}"],
               [[MADE, "STREAM", NAME], [MADE, "DGRAM"], [MADE, "RAW"]])
    rows.equal("and a name with IPv6 its own", {words[0] for words in getent["ahosts six.hosts.test"]}, {"2001:db8::6"})
    rows.equal("and an address behind the prefix the name of its address of IPv4", getent[f"hosts {MADE}"], [[MADE, NAME]])
    rows.equal("and nothing where there is no name", (getent["ahosts nope.zone.test"], getent["ahosts nope.test"]), ([], []))
    for what, name, want in [("of a hosts file", NAME, mapped(0x221)), ("behind a CNAME of a zone", "www.zone.test", mapped(0x222)),
                             (f"with {MANY} addresses, over TCP", "wide.zone.test", mapped(*range(0x201, 0x201 + MANY))),
                             ("of an upstream", "far.test", mapped(0x223)),
                             ("by which clients find the prefix", "ipv4only.arpa", mapped(0xaa, 0xab)),
                             ("that isn't there", "nope.zone.test", socket.EAI_NONAME)]:
        rows.equal(f"getaddrinfo of a name {what}", got["alone"][name], want)
    rows.equal("and for whoever asks for both kinds", got["both"], sorted([V4, MADE]))
    rows.equal("the client reaches what has IPv4 alone, by its name", got["reached"], V4)


def server():
    """In networks of its own: serves, and holds what the client sees against the names and addresses here."""
    rows = Rows()
    subprocess.run(["sh", "-c", OUTSIDE], check=True)
    listen(socket.AF_INET, V4, greet)
    listen(socket.AF_INET6, MADE, pass_on)
    upstream = Upstream(UPSTREAM)
    with tempfile.TemporaryDirectory() as room:
        for name, text in [("hosts", HOSTS), ("db", ZONE), ("resolv.conf", f"nameserver {SERVER}\n"), ("nsswitch.conf", "hosts: dns\n")]:
            put(room, name, text)
        with Served(CONF.replace("ROOM", room).replace("UPSTREAM", str(upstream.port)), port=53) as served:
            rows.row("it serves", served.is_serving(query_bytes(["probe.test", "A"])))
            got = seen(room)
            if "made" in got:
                print(f"skipped: a client's network can't be made here: {got['made'].strip()}")
            else:
                take_rows(rows, got)
    upstream.end()
    rows.end()


def main():
    needs_program()
    if sys.argv[1:] == ["server"]:
        server()
    elif sys.argv[1:2] == ["client"]:
        client(sys.argv[2])
    else:
        own_network()


if __name__ == "__main__":
    main()
