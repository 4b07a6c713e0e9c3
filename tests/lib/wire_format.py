"""Whether bytes spell a message as this server reads messages (RFC 1035, section 4; docs/STANDARDS.md), written apart from the server.

One question; names as runs of labels that end in a zero byte or in a pointer to an earlier place behind the header, at most 255 bytes; data in the
form of its type, whatever its class; an OPT record once, in additional, with the root as owner. Bytes behind the last part don't count.
"""


class Unspelt(Exception):
    pass


def need(holds):
    if not holds:
        raise Unspelt


def number(message, at, size):
    need(at + size <= len(message))
    return int.from_bytes(message[at:at + size], "big")


def name(message, at):
    """The labels of a name, and the place behind it."""
    labels, behind, start, size = [], None, at, 1
    while True:
        length = number(message, at, 1)
        if length >= 192:
            target = number(message, at, 2) & 0x3FFF
            need(12 <= target < start)
            behind = at + 2 if behind is None else behind
            at = start = target
        elif length:
            need(length < 64 and at + 1 + length <= len(message))
            size += 1 + length
            need(size <= 255)
            labels.append(message[at + 1:at + 1 + length])
            at += 1 + length
        else:
            return labels, at + 1 if behind is None else behind


def strings(message, at, end, count):
    """The place behind so many strings, or behind all up to the end."""
    while at < end if count is None else count:
        at += 1 + number(message, at, 1)
        need(at <= end)
        count = None if count is None else count - 1
    return at


def data_end(message, kind, at, end):
    """The place behind the data of a type by its form."""
    names = {2: (0, 1, 0), 5: (0, 1, 0), 12: (0, 1, 0), 6: (0, 2, 20), 15: (2, 1, 0), 33: (6, 1, 0)}
    if kind in names:
        front, count, rest = names[kind]
        at += front
        for _ in range(count):
            at = name(message, at)[1]
        return at + rest
    if kind in (1, 28):
        return at + (4 if kind == 1 else 16)
    if kind == 13:
        return strings(message, at, end, 2)
    if kind == 16:
        return strings(message, at, end, None)
    if kind == 257:
        need(at + 2 <= end and number(message, at + 1, 1) >= 1 and at + 2 + number(message, at + 1, 1) <= end)
    return end


def record(message, at):
    """The owner and the type of a record, and the place behind it."""
    owner, at = name(message, at)
    kind, size = number(message, at, 2), number(message, at + 8, 2)
    at, end = at + 10, at + 10 + size
    need(end <= len(message))
    need(kind == 41 or data_end(message, kind, at, end) == end)
    return owner, kind, end


def spells(message):
    """Whether they do."""
    try:
        counts = [number(message, at, 2) for at in (4, 6, 8, 10)]
        need(counts[0] == 1)
        at = name(message, 12)[1] + 4
        need(at <= len(message))
        opts = 0
        for section, count in enumerate(counts[1:]):
            for _ in range(count):
                owner, kind, at = record(message, at)
                opts += kind == 41
                need(kind != 41 or section == 2 and not owner and opts == 1)
        return True
    except Unspelt:
        return False
