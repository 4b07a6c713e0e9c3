"""Zones made from a seed, served by the program, NSD and Knot, and the same questions to each: every section of every reply compared.

Where a server answers otherwise for a reason that is known, the reason has a function here and is counted; a reply that differs for none
of them is a row that failed. NSD and Knot are skipped with a word where they aren't installed.
"""
import os
import sys
import tempfile
from collections import Counter

sys.path.insert(0, os.path.join(os.path.dirname(os.path.abspath(__file__)), "lib"))
from made_zones import MadeZone  # noqa: E402
from message import query_bytes, reply_lines  # noqa: E402
from program import Rows, needs_program  # noqa: E402
from servers import KNOT, NSD, dnschain, knot, nsd, write  # noqa: E402

# A block has at most 64 directives, so the zones stand below two names.
ZONES, GROUPS, QUESTIONS = 100, 2, 20


def in_small_letters(record):
    """A record with its names in small letters: the owner, and the data but for strings."""
    owner, _, rest = record.partition(" ")
    return f"{owner.lower()} {rest if ' TXT ' in record else rest.lower().replace(' in ', ' IN ', 1)}"


class Reply:
    """What a reply says: its RCODE and AA, and each section as a bag of records, with names in small letters."""

    def __init__(self, message):
        head, *lines = reply_lines(message)
        self.rcode, *flags = head.split(" ")
        self.aa = "aa" in flags
        self.sections = {}
        for name in ("answer", "authority", "additional"):
            found = [line[len(name) + 1:] for line in lines if line.startswith(name + " ")]
            self.sections[name] = Counter(map(in_small_letters, found))
        self.kind = lines[0].rsplit(" ", 1)[1]
        self.lines = [head, *lines]

    def same_but(self, other, *names):
        """Whether two replies are the same, these parts left out."""
        parts = [("rcode", self.rcode, other.rcode), ("aa", self.aa, other.aa)]
        parts += [(name, self.sections[name], other.sections[name]) for name in self.sections]
        return all(mine == theirs for name, mine, theirs in parts if name not in names)

    def ends_in_alias(self):
        """Whether the answer is CNAMEs alone, and the question wasn't for these."""
        return bool(self.sections["answer"]) and all(" IN cname " in text for text in self.sections["answer"])

    def refers(self, other):
        """Whether authority has NS, and those of another owner than the other reply has."""
        mine, theirs = ({text.split(" ")[0] for text in reply.sections["authority"] if " IN ns " in text} for reply in (self, other))
        return bool(mine) and not mine & theirs


# Why a reply may differ from this program's: each is given both replies, this program's first.

def an_alias_leads_out_of_the_zone(ours, theirs):
    """NSD leaves the origin's NS out where a chain of aliases ends outside of the zone."""
    return ours.ends_in_alias() and not theirs.sections["authority"] and ours.same_but(theirs, "authority", "additional")


def an_alias_leads_below_a_cut(ours, theirs):
    """The others refer to the servers of the cut; this program has the origin's NS, as for a target outside."""
    return ours.ends_in_alias() and theirs.refers(ours) and ours.same_but(theirs, "authority", "additional")


def aliases_in_a_circle(ours, theirs):
    """The others end where an alias comes round again, without the origin's NS; this program behind the eighth that it follows."""
    return ours.ends_in_alias() and set(ours.sections["answer"]) == set(theirs.sections["answer"]) \
        and sum(ours.sections["answer"].values()) == 9 and ours.same_but(theirs, "answer", "authority", "additional")


def one_type_for_any(ours, theirs):
    """The others answer ANY by the records of one type (RFC 8482), this program by all."""
    types = {text.split(" ")[3] for text in theirs.sections["answer"]}
    return ours.kind == "ANY" and len(types) == 1 and theirs.sections["answer"] <= ours.sections["answer"] \
        and ours.same_but(theirs, "answer", "authority", "additional")


def no_ns_beside_an_answer(ours, theirs):
    """Knot leaves the origin's NS out of authority where there is an answer, and their addresses out of additional."""
    return bool(ours.sections["answer"]) and not theirs.sections["authority"] and ours.same_but(theirs, "authority", "additional") \
        and not theirs.sections["additional"] - ours.sections["additional"]


SHARED = [an_alias_leads_below_a_cut, aliases_in_a_circle, one_type_for_any]
KNOWN = {"NSD": [an_alias_leads_out_of_the_zone, *SHARED], "Knot": [no_ns_beside_an_answer, *SHARED]}


def started(room, zones):
    """The servers that are there, this program first."""
    blocks = ""
    for group in range(GROUPS):
        files = "".join(f"\tfile {room}/{zone.origin}zone {zone.origin}\n" for zone in zones[group::GROUPS])
        blocks += f"g{group}.test:{{port}} {{\n{files}}}\n"
    yield dnschain(room, blocks)
    of_files = [(zone.origin, f"{room}/{zone.origin}zone") for zone in zones]
    if NSD:
        yield nsd(room, of_files)
    if KNOT:
        yield knot(room, of_files)


def compare(rows, ours, server, asked):
    """A row for a server: every reply is this program's, or differs for a known reason; then how often for which."""
    reasons, others = Counter(), []
    for (name, kind), mine in asked:
        message = server.ask(query_bytes([name, kind, "nord", "bufsize=4096"]))
        if message is None:
            others.append((name, kind, "no reply"))
            continue
        theirs = Reply(message)
        if mine.same_but(theirs):
            continue
        reason = next((reason for reason in KNOWN[server.name] if reason(mine, theirs)), None)
        if reason:
            reasons[reason.__name__.replace("_", " ")] += 1
        else:
            others.append((name, kind, mine.lines, theirs.lines))
    rows.row(f"{len(asked)} questions over {ZONES} zones: {ours.name} and {server.name} answer alike", not others, f"{len(others)} others, {others[:1]}")
    for reason, count in reasons.most_common():
        print(f"  {count} differ: {reason}")
    if "-v" in sys.argv:
        for other in others:
            print(*other, sep="\n  ")


def main():
    needs_program()
    rows = Rows()
    zones = [MadeZone(f"z{number}.g{number % GROUPS}.test.", 7000 + number) for number in range(ZONES)]
    with tempfile.TemporaryDirectory() as room:
        for zone in zones:
            write(room, f"{zone.origin}zone", zone.text())
        servers = []
        try:
            for server in started(room, zones):
                servers.append(server)
            for server in servers:
                if not server.is_serving(query_bytes([zones[-1].origin, "SOA", "nord"])):
                    rows.row(f"{server.name} serves the zones", False, open(os.path.join(room, server.name + ".stderr")).read()[:500])
                    rows.end()
            questions = [zone.question() for zone in zones for _ in range(QUESTIONS)]
            asked = []
            for name, kind in questions:
                message = servers[0].ask(query_bytes([name, kind, "nord", "bufsize=4096"]))
                if message is None:
                    rows.row(f"{name} {kind} gets a reply", False)
                    continue
                asked.append(((name, kind), Reply(message)))
            others = ", ".join(server.name for server in servers[1:]) or "nobody, since neither NSD nor Knot is installed"
            rows.row(f"{len(questions)} questions over {ZONES} zones get a reply each, to compare with {others}", len(asked) == len(questions), len(asked))
            for server in servers[1:]:
                compare(rows, servers[0], server, asked)
            for name, found in (("NSD", NSD), ("Knot", KNOT)):
                if not found:
                    print(f"skipped: {name} isn't installed")
        finally:
            for server in servers:
                server.end()
    rows.end()


if __name__ == "__main__":
    main()
