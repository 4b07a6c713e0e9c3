"""DNS messages for the scenarios: a query from words, and a reply as `dig` prints it (RFC 1035, section 4; RFC 6891).

It reads names with pointers and the types that scenarios speak of, and shows any other data as RFC 3597 has it. It knows nothing of the
server, so that a scenario's answer is what the bytes say.
"""
import ipaddress
import struct

TYPES = {"A": 1, "NS": 2, "CNAME": 5, "SOA": 6, "PTR": 12, "HINFO": 13, "MX": 15, "TXT": 16, "AAAA": 28, "SRV": 33, "OPT": 41, "ANY": 255, "CAA": 257}
CLASSES = {"IN": 1, "CH": 3, "HS": 4, "ANY": 255}
RCODES = ["NOERROR", "FORMERR", "SERVFAIL", "NXDOMAIN", "NOTIMP", "REFUSED"]
FLAGS = [("qr", 0x8000), ("aa", 0x0400), ("tc", 0x0200), ("rd", 0x0100), ("ra", 0x0080), ("ad", 0x0020), ("cd", 0x0010)]
SECTIONS = ["answer", "authority", "additional"]
BADVERS = 16


def number_of(table, word, prefix):
    """The number of a type or class: by its name, or as TYPE65 and CLASS3 (RFC 3597)."""
    return table[word] if word in table else int(word.removeprefix(prefix))


def name_of(table, number, prefix):
    return next((name for name, known in table.items() if known == number), f"{prefix}{number}")


def name_bytes(text):
    """A name without escapes in wire format."""
    labels = [label for label in text.rstrip(".").split(".") if label]
    return b"".join(bytes([len(label)]) + label.encode() for label in labels) + b"\x00"


def query_bytes(words, number=0x1234):
    """The query of `NAME TYPE [CLASS] [WORD ..]`: rd, cd, ad, do, edns, bufsize=N, version=N, opcode=N."""
    name, kind, *others = words
    flags, edns, size, version, bits, class_ = 0x0100, False, 1232, 0, 0, 1
    for word in others:
        key, _, value = word.partition("=")
        if word in CLASSES:
            class_ = CLASSES[word]
        elif key == "nord":
            flags &= ~0x0100
        elif key in ("cd", "ad"):
            flags |= dict(FLAGS)[key]
        elif key == "opcode":
            flags |= int(value) << 11
        elif key in ("edns", "do", "bufsize", "version"):
            edns = True
            bits = 0x8000 if key == "do" else bits
            size = int(value) if key == "bufsize" else size
            version = int(value) if key == "version" else version
        else:
            raise ValueError(f"unknown word of a query: {word}")
    question = name_bytes(name) + struct.pack(">HH", number_of(TYPES, kind, "TYPE"), class_)
    opt = b"\x00" + struct.pack(">HHBBHH", 41, size, 0, version, bits, 0) if edns else b""
    return struct.pack(">HHHHHH", number, flags, 1, 0, 0, int(edns)) + question + opt


def name_at(message, at):
    """The name at an offset in presentation format, and the offset behind it."""
    labels, behind, jumps = [], None, 0
    while True:
        size = message[at]
        if size >= 192:
            behind = at + 2 if behind is None else behind
            at = (size & 63) << 8 | message[at + 1]
            jumps += 1
            if jumps > 128:
                raise ValueError("a name of too many pointers")
        elif size:
            label = message[at + 1:at + 1 + size].decode("latin-1")
            labels.append("".join("\\" + c if c in '.\\"();@$' else c if "!" <= c <= "~" else f"\\{ord(c):03}" for c in label))
            at += 1 + size
        else:
            return ".".join(labels) + ".", at + 1 if behind is None else behind


def strings(data):
    found = []
    while data:
        found.append('"' + data[1:1 + data[0]].decode("latin-1").replace('"', '\\"') + '"')
        data = data[1 + data[0]:]
    return found


def data_text(message, kind, at, size):
    """The data of a record as `dig` prints it."""
    data = message[at:at + size]
    if kind == 1:
        return str(ipaddress.IPv4Address(data))
    if kind == 28:
        return str(ipaddress.IPv6Address(data))
    if kind in (2, 5, 12):
        return name_at(message, at)[0]
    if kind == 6:
        mname, middle = name_at(message, at)
        rname, numbers = name_at(message, middle)
        return " ".join([mname, rname, *map(str, struct.unpack(">5I", message[numbers:numbers + 20]))])
    if kind == 15:
        return f"{struct.unpack('>H', data[:2])[0]} {name_at(message, at + 2)[0]}"
    if kind == 33:
        return " ".join([*map(str, struct.unpack(">3H", data[:6])), name_at(message, at + 6)[0]])
    if kind in (13, 16):
        return " ".join(strings(data))
    if kind == 257:
        tag = data[2:2 + data[1]].decode()
        return f'{data[0]} {tag} "{data[2 + data[1]:].decode("latin-1")}"'
    return f"\\# {len(data)} {data.hex().upper()}".rstrip()


def reply_lines(message):
    """A reply, a line each: the RCODE with its flags, the question, the OPT record, and each record behind its section."""
    _, flags, *counts = struct.unpack(">HHHHHH", message[:12])
    at, lines, opt = 12, [], None
    for _ in range(counts[0]):
        name, at = name_at(message, at)
        kind, class_ = struct.unpack(">HH", message[at:at + 4])
        lines.append(f"question {name} {name_of(CLASSES, class_, 'CLASS')} {name_of(TYPES, kind, 'TYPE')}")
        at += 4
    rcode = flags & 15
    for section, count in zip(SECTIONS, counts[1:]):
        for _ in range(count):
            owner, at = name_at(message, at)
            kind, class_, ttl, size = struct.unpack(">HHIH", message[at:at + 10])
            if kind == 41:
                rcode |= ttl >> 24 << 4
                opt = f"opt version {ttl >> 16 & 255} udp {class_}" + (" do" if ttl & 0x8000 else "")
            else:
                text = data_text(message, kind, at + 10, size)
                lines.append(f"{section} {owner} {ttl} {name_of(CLASSES, class_, 'CLASS')} {name_of(TYPES, kind, 'TYPE')} {text}")
            at += 10 + size
    if at != len(message):
        lines.append(f"{len(message) - at} bytes behind")
    status = "BADVERS" if rcode == BADVERS else RCODES[rcode] if rcode < len(RCODES) else f"RCODE{rcode}"
    opcode = flags >> 11 & 15
    head = " ".join([status, *([f"opcode {opcode}"] if opcode else []), *(name for name, bit in FLAGS if flags & bit)])
    return [head, *lines[:counts[0]], *([opt] if opt else []), *lines[counts[0]:]]
