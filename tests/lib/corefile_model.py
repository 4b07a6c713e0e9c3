"""What the language of Corefiles says of a text (docs/COREFILE.md), written apart from the server: its blocks and directives, or the line of its
first fault. Directives' own words are read by nobody here."""
import ipaddress
import re

DEPTH, BLOCKS, DIRECTIVES = 16, 64, 64
OPEN, CLOSE = ("{", True), ("}", True)
VARIABLE = re.compile(r"\{\$([A-Za-z0-9_]+)\}")


class Fault(Exception):
    """The line that is told."""


class WordFault(Exception):
    def __init__(self, line, why):
        super().__init__(line, why)
        self.line, self.why = line, why


def quoted(line, at):
    """The text between quotes, without its escapes, and the place behind the closing one; None where there is none."""
    end = at + 1
    while True:
        end = line.find('"', end)
        if end < 0:
            return None
        if line[end - 1] != "\\" or end == at + 1:
            return line[at + 1:end].replace('\\"', '"'), end + 1
        end += 1


def line_words(number, line, env):
    """The words of a line, each with whether it is a brace."""
    words, at = [], 0
    while at < len(line):
        if line[at] in " \t":
            at += 1
            continue
        if line[at] == "#":
            break
        if line[at] == '"':
            found = quoted(line, at)
            if found is None:
                raise WordFault(number, "open quote")
            word, at = found
            if at < len(line) and line[at] not in " \t":
                raise WordFault(number, "text after quote")
            words.append((VARIABLE.sub(lambda it: env.get(it[1], ""), word), False))
            continue
        end = min((found for found in (line.find(" ", at), line.find("\t", at)) if found >= 0), default=len(line))
        word, at = line[at:end], end
        if word in ("{", "}"):
            words.append((word, True))
            continue
        word = VARIABLE.sub(lambda it: env.get(it[1], ""), word)
        if word:
            words.append((word, False))
    return words


def text_lines(text, env):
    """The lines that have words, with their numbers."""
    found, lines = [], text.split(b"\n")
    for number, line in enumerate(lines, 1):
        if number < len(lines) and line.endswith(b"\r"):
            line = line[:-1]
        try:
            words = line_words(number, line.decode("utf-8"), env)
        except UnicodeDecodeError:
            raise WordFault(number, "not UTF-8") from None
        if words:
            found.append((number, words))
    return found


def name_labels(text):
    """The labels of a name in presentation format, in small letters; None where it is none."""
    data, at, labels, label = text.encode(), 0, [], bytearray()
    if not data:
        return None
    if data == b".":
        return []
    while at < len(data):
        if data[at:at + 1] == b".":
            if not label:
                return None
            labels.append(bytes(label))
            label, at = bytearray(), at + 1
        elif data[at:at + 1] == b"\\":
            digits = data[at + 1:at + 4]
            if digits[:1].isdigit():
                if len(digits) < 3 or not digits.isdigit() or int(digits) > 255:
                    return None
                label.append(int(digits))
                at += 4
            elif digits:
                label.append(digits[0])
                at += 2
            else:
                return None
        else:
            label.append(data[at])
            at += 1
    if label:
        labels.append(bytes(label))
    if any(len(it) > 63 for it in labels) or sum(len(it) + 1 for it in labels) + 1 > 255:
        return None
    return [it.lower() for it in labels]


def reverse_labels(text):
    """The labels of the reverse zone of ADDRESS/BITS; None where it is no net in whole octets or nibbles."""
    address, _, bits = text.partition("/")
    if not re.fullmatch("[0-9]+", bits):
        return None
    try:
        found = ipaddress.ip_address(address) if "%" not in address else None
    except ValueError:
        return None
    if found is None:
        return None
    step = 8 if found.version == 4 else 4
    if int(bits) > found.max_prefixlen or int(bits) % step:
        return None
    parts = address.split(".") if step == 8 else list(found.exploded.replace(":", ""))
    kept = parts[:int(bits) // step][::-1]
    return [it.encode() for it in kept] + ([b"in-addr", b"arpa"] if step == 8 else [b"ip6", b"arpa"])


def key(text, port):
    """The zone and the port of a key."""
    if "://" in text:
        scheme, _, text = text.partition("://")
        if scheme != "dns":
            raise Fault("block: scheme")
    is_net = "/" in text
    front, slash, behind = text.partition("/") if is_net else ("", "", text)
    rest, colon, digits = behind.rpartition(":") if not is_net else behind.partition(":")
    if colon:
        if not re.fullmatch("[0-9]{1,5}", digits) or not 1 <= int(digits) <= 65535:
            raise Fault("block: port")
        port, behind = int(digits), rest
    if is_net:
        labels = reverse_labels(front + slash + behind)
        if labels is None:
            raise Fault("block: cidr")
    else:
        labels = name_labels(behind) if behind else []
        if labels is None:
            raise Fault("block: zone")
    return tuple(labels), port


class Reading:
    """The reading of a Corefile line by line."""

    def __init__(self, files, env, port):
        self.files, self.env, self.port = files, env, port
        self.snippets, self.keys, self.blocks = {}, set(), []
        self.mode, self.opened, self.kept, self.depth_kept = "top", [], None, 0

    def fail(self, line, why):
        raise Fault(f"corefile line {line}: {why}")

    def take_all(self, lines, told, depth):
        for number, words in lines:
            self.take(told or number, words, depth)

    def take(self, line, words, depth):
        {"top": self.at_top, "block": self.in_block, "body": self.in_body, "snippet": self.in_snippet}[self.mode](line, words, depth)

    def bring(self, line, words, depth):
        """The lines that an import names."""
        if len(words) != 2 or words[1][1]:
            self.fail(line, "block: importargs")
        if depth == DEPTH:
            self.fail(line, "import too deep")
        name = words[1][0]
        lines = self.snippets.get(name)
        if lines is None:
            if self.files.get(name) is None:
                self.fail(line, "no snippet or file")
            try:
                lines = text_lines(self.files[name], self.env)
            except WordFault as fault:
                self.fail(line, fault.why)
        self.take_all(lines, line, depth + 1)

    def at_top(self, line, words, depth):
        if words[0][0] == "import":
            return self.bring(line, words, depth)
        if len(words) == 2 and words[1] == OPEN and words[0][0].startswith("(") and words[0][0].endswith(")"):
            name = words[0][0][1:-1]
            if not name or name in self.snippets:
                self.fail(line, "block: snippetname")
            self.mode, self.kept, self.depth_kept = "snippet", (name, []), 1
            self.opened.append(line)
            return None
        if words[-1] == OPEN and not any(brace for _, brace in words[:-1]):
            return self.header(line, [word for word, _ in words[:-1]])
        return self.fail(line, "block: straybrace" if any(brace for _, brace in words) else "block: outside")

    def header(self, line, words):
        if len(self.blocks) == BLOCKS:
            raise Fault(f"too many blocks: {BLOCKS + 1}")
        keys = [piece for word in words for piece in word.split(",") if piece]
        if not keys:
            self.fail(line, "block: nokey")
        for text in keys:
            try:
                found = key(text, self.port)
            except Fault as fault:
                self.fail(line, str(fault))
            if found in self.keys:
                self.fail(line, "zone and port given twice")
            self.keys.add(found)
        self.blocks.append([])
        self.mode = "block"
        self.opened.append(line)

    def in_block(self, line, words, depth):
        if words == [CLOSE]:
            self.mode = "top"
            self.opened.pop()
            return None
        if words[0][0] == "import":
            return self.bring(line, words, depth)
        has_body = words[-1] == OPEN
        front = words[:-1] if has_body else words
        if not front or any(brace for _, brace in front):
            self.fail(line, "block: straybrace")
        if len(self.blocks[-1]) == DIRECTIVES:
            raise Fault(f"too many directives: {DIRECTIVES + 1}")
        self.blocks[-1].append((line, front[0][0], [line]))
        if has_body:
            self.mode = "body"
            self.opened.append(line)
        return None

    def in_body(self, line, words, _):
        if words == [CLOSE]:
            self.mode = "block"
            self.opened.pop()
        elif words[-1] == OPEN:
            self.fail(line, "block: deepbrace")
        elif any(brace for _, brace in words):
            self.fail(line, "block: straybrace")
        else:
            self.blocks[-1][-1][2].append(line)

    def in_snippet(self, line, words, _):
        if words[-1] == OPEN:
            self.depth_kept += 1
        elif words == [CLOSE]:
            self.depth_kept -= 1
            if self.depth_kept == 0:
                self.snippets[self.kept[0]] = self.kept[1]
                self.mode = "top"
                self.opened.pop()
                return
        self.kept[1].append((line, words))


def read(text, files, env, port=53):
    """The blocks of a Corefile, each a list of its directives as (line, name, lines with those of the body), and its ports; Fault where it is refused."""
    reading = Reading(files, env, port)
    try:
        lines = text_lines(text, env)
    except WordFault as fault:
        reading.fail(fault.line, fault.why)
    reading.take_all(lines, None, 0)
    if reading.mode != "top":
        reading.fail(reading.opened[-1], "block: openblock")
    return reading.blocks, {port for _, port in reading.keys}
