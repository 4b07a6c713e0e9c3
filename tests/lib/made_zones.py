"""Zones and questions that are made from a seed, for a comparison of servers: hosts, aliases, wildcards, delegations, names in between."""
import random

TTLS = [60, 300, 3600, 86400]
TYPES_ASKED = ["A", "A", "A", "AAAA", "MX", "TXT", "NS", "SOA", "CNAME", "SRV", "PTR", "ANY"]


class MadeZone:
    """A zone at an origin: its master file, and the names that a question may be about."""

    def __init__(self, origin, seed):
        self.origin, self.dice = origin, random.Random(seed)
        self.lines, self.names = [], [""]
        self.head()
        self.hosts()
        self.aliases()
        self.wildcards()
        self.delegations()

    def put(self, owner, kind, data):
        """A record; those of one owner and type have one TTL (RFC 2181, section 5.2)."""
        ttl = TTLS[sum(map(ord, owner + kind)) % len(TTLS)]
        self.lines.append(f"{owner or '@'} {ttl} IN {kind} {data}")
        if owner.lower() not in self.names:
            self.names.append(owner.lower())

    def head(self):
        minimum = self.dice.choice([30, 900, 7200])
        self.put("", "SOA", f"ns1 admin {self.dice.randrange(1, 10 ** 9)} 7200 3600 1209600 {minimum}")
        self.put("", "NS", "ns1")
        self.put("ns1", "A", self.address())
        if self.dice.random() < 0.6:
            self.put("", "NS", "ns2")
            self.put("ns2", "A", self.address())
            self.put("ns2", "AAAA", self.address6())
        if self.dice.random() < 0.4:
            self.put("", "NS", "ns.elsewhere.example.")
        if self.dice.random() < 0.5:
            self.put("", "MX", "10 mail")
            self.put("mail", "A", self.address())
            self.put("", "MX", "20 mx.elsewhere.example.")
        if self.dice.random() < 0.5:
            self.put("", "TXT", '"v=spf1 -all" "and more"')

    def hosts(self):
        for number in range(self.dice.randrange(4, 9)):
            owner = self.dice.choice(["h{}", "Host{}", "h{}.deep", "h{}.very.deep", "x-{}"]).format(number)
            for _ in range(self.dice.randrange(1, 4)):
                self.put(owner, "A", self.address())
            if self.dice.random() < 0.5:
                self.put(owner, "AAAA", self.address6())
            if self.dice.random() < 0.3:
                self.put(owner, "TXT", f'"host {number}"')
            if self.dice.random() < 0.3:
                self.put(owner, "MX", f"5 {owner}")
            if self.dice.random() < 0.3:
                self.put(f"_svc._tcp.{owner}", "SRV", f"1 2 80{number} {owner}")
            self.target = owner

    def aliases(self):
        self.put("alias", "CNAME", self.target)
        self.put("second", "CNAME", "alias")
        self.put("out", "CNAME", "www.elsewhere.example.")
        self.put("nowhere", "CNAME", "no.such.name")
        self.put("towild", "CNAME", "any.wild")
        self.put("loop", "CNAME", "pool")
        self.put("pool", "CNAME", "loop")
        if self.dice.random() < 0.5:
            self.put("Third.Alias", "CNAME", "SECOND")

    def wildcards(self):
        self.put("*.wild", "A", self.address())
        self.put("*.wild", "MX", "10 mail.elsewhere.example.")
        self.put("there.wild", "TXT", '"is there"')
        if self.dice.random() < 0.5:
            self.put("*.other.wild", "CNAME", self.target)
        if self.dice.random() < 0.5:
            self.put("below.in-between.between", "A", self.address())

    def delegations(self):
        self.put("sub", "NS", "ns.sub")
        self.put("ns.sub", "A", self.address())
        if self.dice.random() < 0.5:
            self.put("sub", "NS", "ns.elsewhere.example.")
        self.put("far.off", "NS", "ns1")
        if self.dice.random() < 0.5:
            self.put("lame", "NS", "nowhere.elsewhere.example.")
        self.put("tosub", "CNAME", "www.sub")

    def address(self):
        return f"192.0.2.{self.dice.randrange(1, 255)}"

    def address6(self):
        return f"2001:db8::{self.dice.randrange(1, 65535):x}"

    def text(self):
        return f"$ORIGIN {self.origin}\n" + "\n".join(self.lines) + "\n"

    def question(self):
        """A name and a type: an owner, a name below or above one, one that a wildcard makes, or one that doesn't exist."""
        owner = self.dice.choice(self.names)
        form = self.dice.randrange(8)
        if form == 0:
            owner = f"{self.dice.choice(['no', 'www', 'a.b'])}.{owner}" if owner else "no"
        elif form == 1 and "." in owner:
            owner = owner.split(".", 1)[1]
        elif form == 2:
            owner = self.dice.choice(["q.wild", "q.r.wild", "www.sub", "x.other.wild", "q.there.wild", "far.off", "a.far.off"])
        owner = owner.replace("*", self.dice.choice(["*", "star"]))
        if self.dice.random() < 0.2:
            owner = owner.upper()
        return f"{owner}.{self.origin}" if owner else self.origin, self.dice.choice(TYPES_ASKED)
